/*
 * How much of the stack each function of the archive takes, at most. Every call stands on a stack of its own that is painted
 * before and looked through behind: from where the stack stood at the function's entry, its return address included, down to
 * the deepest byte that is no longer paint. Prints a table and ends with 1 if a function takes more than the header says.
 *
 * The inputs go through the deep ways: full tables, every part of a full image, the longest packets, each own command, each
 * answer, a recording of all kinds of events and every part of it, and the refusals.
 */
#define _XOPEN_SOURCE 700
#include <stdio.h>
#include <string.h>
#include <ucontext.h>

/* Each function is entered by two instructions of assembly that note where the stack stands; the header's own wrappers too. */
#define tz_abi noted_abi
#define tz_judge noted_judge
#define tz_arguments noted_arguments
#define tz_build noted_build
#define tz_load noted_load
#define tz_replay noted_replay
#define tz_lent_packet noted_lent_packet
#define tz_lent_tick noted_lent_tick
#define tz_lent_fault noted_lent_fault
#define tz_lent_resume noted_lent_resume
#include "tamezohishu.h"

#define NOTED(name) ".globl noted_" name "\nnoted_" name ":\n movq %rsp, entered(%rip)\n jmp tz_" name "@PLT\n"
__asm__(".text\n" NOTED("abi") NOTED("judge") NOTED("arguments") NOTED("build") NOTED("load") NOTED("replay")
    NOTED("lent_packet") NOTED("lent_tick") NOTED("lent_fault") NOTED("lent_resume"));
uint8_t *entered;

enum function { ABI, JUDGE, ARGUMENTS, BUILD, LOAD, PACKET, TICK, FAULT, RESUME, REPLAY, FUNCTIONS };

/* the most that the header allows each, and what was found */
static struct {
    const char *name;
    long allowed, most;
    unsigned long calls;
} table[FUNCTIONS] = {
    {"tz_abi", TZ_STACK_ALONE, 0, 0},
    {"tz_judge", TZ_STACK_ALONE, 0, 0},
    {"tz_arguments", TZ_STACK_ALONE, 0, 0},
    {"tz_build", TZ_STACK_ALONE, 0, 0},
    {"tz_load", TZ_STACK_LOAD, 0, 0},
    {"tz_lent_packet", TZ_STACK_STEP, 0, 0},
    {"tz_lent_tick", TZ_STACK_STEP, 0, 0},
    {"tz_lent_fault", TZ_STACK_STEP, 0, 0},
    {"tz_lent_resume", TZ_STACK_STEP, 0, 0},
    {"tz_replay", TZ_STACK_LOAD, 0, 0},
};

/* ---- a painted stack ---- */

static uint8_t stack[32768];
static ucontext_t here, there;
static int failed = 0;

/* what is handed over, and what comes back: nothing of it stands on the painted stack */
static tz_loaded state, loaded;
static tz_run run;
static tz_answer answer;
static tz_judged judged;
static tz_part part;
static tz_built built;
static tz_piece piece;
static tz_replayed replayed;
static uint8_t out[1 << 16];
static const uint8_t *bytes;
static uint8_t full[4096];
static size_t full_length;  /* the image of all tables full */
static size_t length, room, image_length;
static uint16_t apid, pads, fault;
static uint32_t number;
static enum function wanted;

static void call(void) {
    switch (wanted) {
        case ABI: number = tz_abi(); break;
        case JUDGE: judged = tz_judge(bytes, length); break;
        case ARGUMENTS: part = tz_arguments(bytes, length); break;
        case BUILD: built = tz_build(apid, 3, 4, bytes, length, pads, out, room); break;
        case LOAD: loaded = tz_load(bytes, length); break;
        case PACKET: answer = tz_step_packet(&state.config, &run, bytes, length, out, room); break;
        case TICK: answer = tz_step_tick(&state.config, &run); break;
        case FAULT: answer = tz_step_fault(&state.config, &run, fault, out, room); break;
        case RESUME: piece = tz_resume(&state.config, &run, bytes, length, out, room); break;
        default: replayed = tz_replay(full, image_length, bytes, length, out, room); break;
    }
}

/* What leaving a stack writes to it stands in this much above the call. */
static void below(void) {
    volatile uint8_t above[512];
    above[0] = 0;
    call();
    above[511] = above[0];
}

static void on_stack(void) {
    getcontext(&there);
    there.uc_stack.ss_sp = stack;
    there.uc_stack.ss_size = sizeof stack;
    there.uc_link = &here;
    makecontext(&there, below, 0);
    swapcontext(&here, &there);
}

/*
 * The call, three times from the same run: once for a program that binds memcpy at its first use, then in two paints, as a
 * byte may be written over by its own paint.
 */
static void measure(enum function f) {
    static const uint8_t paints[3] = {0x00, 0xA5, 0x5A};
    tz_run before = run;
    wanted = f;
    for (int k = 0; k < 3; k++) {
        memset(stack, paints[k], sizeof stack);
        run = before;
        entered = NULL;
        on_stack();
        size_t deepest = 0;
        while (deepest < sizeof stack && stack[deepest] == paints[k]) deepest++;
        if (deepest == 0 || entered < stack || entered >= stack + sizeof stack) {
            printf("c stack: %s: not measured\n", table[f].name);
            failed = 1;
            return;
        }
        /* the return address stands where the stack stood */
        uint8_t *lowest = stack + deepest < entered ? stack + deepest : entered;
        long taken = (long)(entered + 8 - lowest);
        if (k > 0 && taken > table[f].most) table[f].most = taken;
    }
    table[f].calls++;
}

/* What was sent must have gone the way that was meant. */
static void is(const char *what, unsigned found, unsigned meant) {
    if (found == meant) return;
    printf("c stack: %s: %u and not %u\n", what, found, meant);
    failed = 1;
}

/* ---- what is sent ---- */

static void record(uint8_t *to, size_t *end, uint16_t kind, const uint8_t *body, size_t n) {
    const uint8_t header[4] = {(uint8_t)n, (uint8_t)(n >> 8), (uint8_t)kind, (uint8_t)(kind >> 8)};
    memcpy(to + *end, header, 4);
    memcpy(to + *end + 4, body, n);
    *end += 4 + n;
}

/* All tables full: routes 1000 to 1127, each fourth of them protected, faults 2000 to 2031 with 16 arguments each. */
static void fill(void) {
    const uint8_t basics[6] = {1, 0, 2, 0, 100, 0};
    record(full, &full_length, 1, basics, 6);
    for (unsigned k = 0; k < TZ_ROUTES; k++) {
        const uint8_t body[3] = {(uint8_t)(1000 + k), (uint8_t)((1000 + k) >> 8), (uint8_t)(1 + k % 31)};
        record(full, &full_length, 2, body, 3);
    }
    for (unsigned k = 0; k < TZ_PROTECTED_IDS; k++) {
        const uint8_t body[2] = {(uint8_t)(1000 + 4 * k), (uint8_t)((1000 + 4 * k) >> 8)};
        record(full, &full_length, 3, body, 2);
    }
    for (unsigned k = 0; k < TZ_ROWS; k++) {
        uint8_t body[7 + TZ_ROW_ARGS] = {(uint8_t)(2000 + k), (uint8_t)((2000 + k) >> 8), (uint8_t)(1127 - k),
            (uint8_t)((1127 - k) >> 8), 1, (uint8_t)(k % 2), TZ_ROW_ARGS};
        memset(body + 7, 0xC3, TZ_ROW_ARGS);
        record(full, &full_length, 4, body, sizeof body);
    }
}

/* A packet from its fields, into the next of a few places. */
static uint8_t packets[64][TZ_LONGEST_BUILT];
static size_t packet_lengths[64], packet_count;

static void make(uint16_t id, size_t count, uint16_t zeros, const uint8_t *args) {
    static const uint8_t none[255] = {0};
    tz_built b = tz_build(1, 0, id, args ? args : none, count, zeros, packets[packet_count], TZ_LONGEST_BUILT);
    packet_lengths[packet_count++] = b.written;
}

/* The packets that are sent: dispatched, protected, unknown, each own command with none to three arguments, and spoiled ones. */
static void make_all(void) {
    static const uint8_t row[4] = {0x07, 0xDF, 0, 0};       /* fault 2015 */
    static const uint8_t no_row[4] = {0x27, 0x10, 0, 0};    /* fault 10000 */
    make(1127, 255, 127, NULL);
    make(1127, 0, 0, NULL);
    make(1124, 255, 0, NULL);
    make(999, 255, 0, NULL);
    for (uint16_t own = 100; own < 108; own++) {
        for (size_t n = 0; n < 4; n++) make(own, n, 0, row);
    }
    for (uint16_t own = 104; own < 107; own++) make(own, 2, 0, no_row);
    /* other size, version, type, secondary header, XOR; more pads than bytes, with the XOR kept */
    static const uint8_t places[7] = {4, 0, 0, 0, 9, 6, 6}, bits[7] = {1, 0x20, 0x10, 0x08, 1, 0x7F, 0x7F};
    for (size_t k = 0; k < 7; k++) {
        make(1127, k < 6 ? 255 : 4, 0, NULL);
        packets[packet_count - 1][places[k]] ^= bits[k];
        if (places[k] == 6) packets[packet_count - 1][7] ^= bits[k];
    }
    make(1127, 4, 0, NULL);
    packet_lengths[packet_count - 1] = 5;
}

/* A packet of the most bytes that a length field can tell, with more arguments than there may be. */
static uint8_t longest[7 + 65535];

static void make_longest(void) {
    uint8_t sum = 0;
    make(1127, 0, 0, NULL);
    memcpy(longest, packets[--packet_count], 10);
    longest[4] = longest[5] = 0xFF;
    longest[7] = 0;
    for (size_t k = 0; k < sizeof longest; k++) sum ^= longest[k];
    longest[7] = sum;
}

/* ---- the calls ---- */

static void alone(void) {
    measure(ABI);
    for (size_t k = 0; k <= packet_count; k++) {
        bytes = k < packet_count ? packets[k] : longest;
        length = k < packet_count ? packet_lengths[k] : sizeof longest;
        measure(JUDGE);
        measure(ARGUMENTS);
    }
    static const uint8_t args[256] = {0};
    bytes = args;
    for (length = 0; length <= 256; length++) {
        for (unsigned k = 0; k < 4; k++) {
            apid = k == 3 ? 2048 : 1;
            pads = k == 1 ? 127 : k == 2 ? 128 : 0;
            room = TZ_LONGEST_BUILT;
            measure(BUILD);
            room = 9;
            measure(BUILD);
        }
    }
}

static void loads(void) {
    static uint8_t changed[sizeof full];
    bytes = full;
    for (length = 0; length <= full_length; length++) measure(LOAD);
    is("the full image", loaded.answer, TZ_LOADED);
    is("its rows", (unsigned)loaded.config.numbers.nrows, TZ_ROWS);
    state = loaded;
    memcpy(changed, full, full_length);
    bytes = changed;
    length = full_length;
    for (size_t k = 0; k < full_length; k++) {
        changed[k] ^= 0xFF;
        measure(LOAD);
        changed[k] = full[k];
    }
}

/* Each packet, the tick and faults, from the state as it was loaded or armed, and from the one that was left. */
static void events(void) {
    static uint8_t seen[256];
    for (int armed = 0; armed < 3; armed++) {
        run = state.run;
        run.standing.armed = armed > 0;
        run.standing.ticks = armed == 2;
        tz_run start = run;
        for (size_t k = 0; k <= packet_count; k++) {
            bytes = k < packet_count ? packets[k] : longest;
            length = k < packet_count ? packet_lengths[k] : sizeof longest;
            run = start;
            measure(PACKET);
            seen[answer.answer] = 1;
        }
        run = start;
        measure(TICK);
        seen[answer.answer] = 1;
        for (fault = 1999; fault <= 2032; fault++) {
            run = start;
            for (int twice = 0; twice < 2; twice++) {
                measure(FAULT);
                seen[answer.answer] = 1;
            }
        }
    }
    fault = 2000;
    for (unsigned k = TZ_DISPATCHED; k <= TZ_UNKNOWN_FAULT; k++) {
        int none = (k > TZ_UNARMED && k < TZ_SHORT);
        if (!none) is("an answer that was met", seen[k] ? k : 0, k);
    }
}

static void refused_state(unsigned meant) {
    length = packet_lengths[0];
    bytes = packets[0];
    measure(PACKET);
    is("a packet refused", answer.answer, meant);
    measure(FAULT);
    is("a fault refused", answer.answer, meant);
    if (meant == TZ_NO_ROOM) return;
    measure(TICK);
    is("a tick refused", answer.answer, meant);
    measure(RESUME);
    is("a piece refused", piece.stop, meant);
}

static void refusals(void) {
    run = state.run;
    room = TZ_ROOM - 1;
    refused_state(TZ_NO_ROOM);
    room = TZ_ROOM;
    run.standing.armed = 2;
    refused_state(TZ_BAD_STATE);
    run = state.run;
    run.states[31] = 3;
    refused_state(TZ_BAD_STATE);
    run = state.run;
    state.config.args[511] ^= 1;
    state.config.argcounts[31] = 17;
    refused_state(TZ_BAD_STATE);
    state = loaded;
    run = state.run;
    state.config.responses[31] = 999;
    refused_state(TZ_BAD_STATE);
    state = loaded;
}

static void recordings(void) {
    static uint8_t recording[1 << 16];
    size_t end = 0;
    for (size_t k = 0; k < packet_count; k++) {
        const uint8_t known[2] = {(uint8_t)(2000 + k), 7}, unknown[2] = {0, 0};
        record(recording, &end, 16, packets[k], packet_lengths[k]);
        record(recording, &end, 17, known, 0);
        record(recording, &end, 18, known, 2);
        record(recording, &end, 18, unknown, 2);
    }
    bytes = recording;
    room = sizeof out;
    for (length = 0; length <= end; length += length < end - 7 ? 7 : 1) {
        run = state.run;
        measure(RESUME);
        image_length = full_length;
        measure(REPLAY);
    }
    is("the whole recording", replayed.stop, 0);
    is("its events", (unsigned)replayed.count, (unsigned)(4 * packet_count));
    is("the same in a piece", (unsigned)piece.count, (unsigned)(4 * packet_count));
    length = end;
    for (room = 0; room < 4 * TZ_REPLY; room += 37) {
        run = state.run;
        measure(RESUME);
        is("no more room", piece.stop, TZ_STOP_FULL);
        measure(REPLAY);
    }
    room = sizeof out;
    for (image_length = 0; image_length < full_length; image_length += 5) measure(REPLAY);
}

int main(void) {
    fill();
    make_all();
    make_longest();
    loads();
    room = TZ_ROOM;
    alone();
    room = TZ_ROOM;
    events();
    loaded = state;
    refusals();
    recordings();
    for (int k = 0; k < FUNCTIONS; k++) {
        printf("c stack: %-14s %5ld bytes at most in %5lu calls; the header says %ld\n", table[k].name, table[k].most,
            table[k].calls, table[k].allowed);
        if (table[k].most > table[k].allowed) {
            printf("c stack: %s: above what the header says\n", table[k].name);
            failed = 1;
        }
    }
    return failed;
}
