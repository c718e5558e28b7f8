/*
 * The C boundary in use: document 01's session by steps and by replay, each refusal of the boundary's own (an armed byte that is
 * no bool, a state from elsewhere, short room), that these change neither configuration, run nor output, and that no byte behind
 * the written part changes. Prints a line for each check and ends with 1 if one failed.
 */
#include <stdio.h>
#include <string.h>
#include "tamezohishu.h"

/* The numbers of a reply, in bytes. */
enum { HEAD = TZ_REPLY - TZ_ROOM };

static int failed = 0;

static void check(const char *what, int ok) {
    printf("c boundary: %s: %s\n", what, ok ? "ok" : "not as expected");
    if (!ok) failed = 1;
}

static const uint8_t c[42] = {6, 0, 1, 0, 1, 0, 2, 0, 100, 0, 3, 0, 2, 0, 10, 0, 1, 3, 0, 2, 0, 20, 0, 2,
    2, 0, 3, 0, 20, 0, 8, 0, 4, 0, 7, 0, 10, 0, 1, 1, 1, 0xAA};
static const uint8_t g[10] = {0x18, 1, 0xC0, 0, 0, 3, 0, 0xCE, 0, 0x14};
static const uint8_t arm[11] = {0x18, 1, 0xC0, 0, 0, 4, 0, 0xBB, 0, 0x64, 2};
static const uint8_t pad[12] = {0x18, 1, 0xC0, 0, 0, 5, 1, 0xD2, 0, 0x0A, 5, 0};

/* the session of document 01: a packet, a tick or a fault, and the four numbers that it prints */
enum { PACKET = 16, TICK = 17, FAULT = 18 };
static const struct event {
    int kind;
    const uint8_t *packet;
    size_t length;
    uint16_t fault;
    tz_answer want;
} session[12] = {
    {PACKET, g, sizeof g, 0, {30, 20, 0, 0}},
    {PACKET, arm, sizeof arm, 0, {11, 100, 0, 0}},
    {TICK, NULL, 0, 0, {14, 0, 0, 0}},
    {PACKET, g, sizeof g, 0, {10, 20, 2, 5}},
    {PACKET, arm, sizeof arm, 0, {11, 100, 0, 0}},
    {TICK, NULL, 0, 0, {14, 0, 0, 0}},
    {TICK, NULL, 0, 0, {15, 0, 0, 0}},
    {PACKET, g, sizeof g, 0, {30, 20, 0, 0}},
    {PACKET, pad, sizeof pad, 0, {10, 10, 1, 6}},
    {FAULT, NULL, 0, 7, {10, 10, 1, 6}},
    {FAULT, NULL, 0, 7, {13, 0, 0, 0}},
    {FAULT, NULL, 0, 8, {34, 0, 0, 0}},
};

static int same(tz_answer a, tz_answer b) {
    return a.answer == b.answer && a.id == b.id && a.dest == b.dest && a.written == b.written;
}

static int is_bare(tz_answer a, uint8_t n) {
    tz_answer want = {n, 0, 0, 0};
    return same(a, want);
}

static int same_run(const tz_run *a, const tz_run *b) {
    return a->standing.armed == b->standing.armed && a->standing.ticks == b->standing.ticks
        && memcmp(&a->standing.counts, &b->standing.counts, sizeof a->standing.counts) == 0
        && memcmp(a->states, b->states, sizeof a->states) == 0;
}

/* whether all of n bytes are still v */
static int still(const uint8_t *bytes, size_t n, uint8_t v) {
    for (size_t k = 0; k < n; k++) if (bytes[k] != v) return 0;
    return 1;
}

static tz_answer step(const tz_config *config, tz_run *run, const struct event *e, uint8_t *out, size_t room) {
    if (e->kind == PACKET) return tz_step_packet(config, run, e->packet, e->length, out, room);
    if (e->kind == TICK) return tz_step_tick(config, run);
    return tz_step_fault(config, run, e->fault, out, room);
}

/* What every call that the boundary refuses must leave: the run, the output, and the configuration byte for byte. */
static const tz_config *lent;
static tz_config lent_before;
static tz_run run_before;
static uint8_t out[512];

static void lend(const tz_config *config, const tz_run *run) {
    lent = config;
    memcpy(&lent_before, config, sizeof lent_before);
    run_before = *run;
    memset(out, 0x5A, sizeof out);
}

static int nothing_changed(const tz_run *run) {
    return same_run(run, &run_before) && still(out, sizeof out, 0x5A) && memcmp(lent, &lent_before, sizeof lent_before) == 0;
}

/* Whether each of the four calls that take a state answers 20, with room enough, and changes nothing. */
static int all_refuse(const tz_config *config, tz_run *run, const uint8_t *recording, size_t length) {
    lend(config, run);
    int kept = is_bare(tz_step_packet(config, run, pad, sizeof pad, out, sizeof out), TZ_BAD_STATE) && nothing_changed(run);
    kept &= is_bare(tz_step_fault(config, run, 7, out, sizeof out), TZ_BAD_STATE) && nothing_changed(run);
    kept &= is_bare(tz_step_tick(config, run), TZ_BAD_STATE) && nothing_changed(run);
    tz_piece p = tz_resume(config, run, recording, length, out, sizeof out);
    kept &= p.stop == TZ_BAD_STATE && p.read == 0 && p.count == 0 && p.wrote == 0 && nothing_changed(run);
    p = tz_resume(config, run, recording, 0, out, 0);
    return kept && p.stop == TZ_BAD_STATE && nothing_changed(run);
}

/* The builder: document 01's packets from their fields, the limits, the order of the refusals, and what is left alone. */
static void builder(void) {
    uint8_t many[256] = {0};
    memset(out, 0x5A, sizeof out);
    tz_built b = tz_build(1, 0, 20, many, 0, 0, out, sizeof g);
    int right = b.answer == TZ_BUILT && b.written == sizeof g && memcmp(out, g, sizeof g) == 0;
    b = tz_build(1, 0, 100, (const uint8_t *)"\x02", 1, 0, out, sizeof out);
    right &= b.answer == TZ_BUILT && b.written == sizeof arm && memcmp(out, arm, sizeof arm) == 0;
    b = tz_build(1, 0, 10, (const uint8_t *)"\x05", 1, 1, out, sizeof out);
    right &= b.answer == TZ_BUILT && b.written == sizeof pad && memcmp(out, pad, sizeof pad) == 0;
    check("G, ARM and PAD from their fields", right && still(out + sizeof pad, sizeof out - sizeof pad, 0x5A));

    b = tz_build(2047, 16383, 65535, many, 255, 127, out, TZ_LONGEST_BUILT);
    tz_judged j = tz_judge(out, TZ_LONGEST_BUILT);
    tz_part part = tz_arguments(out, TZ_LONGEST_BUILT);
    check("the longest packet", b.answer == TZ_BUILT && b.written == TZ_LONGEST_BUILT && j.answer == 0 && j.id == 65535
        && j.count == 255 && part.offset == 10 && part.length == 255);

    memset(out, 0x5A, sizeof out);
    static const uint8_t want[5] = {TZ_APID_TOO_HIGH, TZ_COUNT_TOO_HIGH, TZ_TOO_MANY_ARGS, TZ_TOO_MANY_PADS, TZ_OUTPUT_TOO_SMALL};
    int refused = 1;
    for (int k = 0; k < 5; k++) {
        b = tz_build(k > 0 ? 2047 : 2048, k > 1 ? 16383 : 16384, 20, many, k > 2 ? 255 : 256, k > 3 ? 127 : 128, out,
            TZ_LONGEST_BUILT - 1);
        refused &= b.answer == want[k] && b.written == 0;
    }
    check("40 to 44 in their order", refused && still(out, sizeof out, 0x5A));
}

int main(void) {
    check("the archive's number is the header's", tz_abi() == TZ_ABI && tz_same_abi() == 1);
    tz_loaded l = tz_load(c, sizeof c);
    const tz_numbers *n = &l.config.numbers;
    const tz_settings *s = &n->settings;
    check("configuration C loads", l.answer == TZ_LOADED && l.offset == 0 && s->ground == 1 && s->fault == 2 && s->base == 100
        && n->nroutes == 2 && n->nprotected == 1 && n->nrows == 1 && l.config.dests[1] == 2 && l.config.protected_ids[0] == 20
        && l.config.args[0] == 0xAA && l.run.standing.armed == 0 && l.run.states[0] == 1);
    tz_config loaded;
    memcpy(&loaded, &l.config, sizeof loaded);

    /* the session, step by step */
    uint8_t recording[512];
    size_t end = 0;
    int all = 1, untouched = 1, sent = 1;
    tz_run run = l.run;
    for (size_t k = 0; k < 12; k++) {
        memset(out, 0x5A, sizeof out);
        tz_answer a = step(&l.config, &run, &session[k], out, TZ_ROOM);
        all &= same(a, session[k].want);
        untouched &= still(out + a.written, sizeof out - a.written, 0x5A);
        if (k == 8) sent &= memcmp(out, "\x00\x01\x00\x0A\x01\x05", 6) == 0;
        if (k == 9) sent &= memcmp(out, "\x00\x02\x00\x0A\x01\xAA", 6) == 0;
        size_t size = session[k].kind == PACKET ? session[k].length : session[k].kind == FAULT ? 2 : 0;
        recording[end++] = (uint8_t)size;
        recording[end++] = 0;
        recording[end++] = (uint8_t)session[k].kind;
        recording[end++] = 0;
        if (session[k].kind == PACKET) memcpy(recording + end, session[k].packet, size);
        if (session[k].kind == FAULT) {
            recording[end] = (uint8_t)session[k].fault;
            recording[end + 1] = 0;
        }
        end += size;
    }
    check("the session's answers", all);
    check("the commands of PAD and fault 7", sent);
    check("bytes behind the written part stay", untouched);
    const tz_counts left = run.standing.counts;
    check("the counters", left.a == 6 && left.r == 0 && left.d == 3 && left.p == 2 && left.u == 0 && left.i == 0 && left.f == 3);
    check("the fault row is latched, the path unarmed", run.states[0] == 2 && run.standing.armed == 0 && run.standing.ticks == 0);
    tz_run again = run;
    check("a tick behind it", is_bare(tz_step_tick(&l.config, &again), TZ_TICK) && same_run(&again, &run));

    /* the same session as a recording */
    static uint8_t replies[12 * TZ_REPLY + 40];
    memset(replies, 0x5A, sizeof replies);
    tz_replayed r = tz_replay(c, sizeof c, recording, end, replies, sizeof replies);
    int told = r.load == 0 && r.offset == 0 && r.stop == 0 && r.read == end && r.count == 12
        && memcmp(&r.counts, &left, sizeof left) == 0;
    size_t at = 0;
    for (size_t k = 0; k < 12; k++) {
        tz_answer a = {replies[at], (uint16_t)(replies[at + 1] + 256 * replies[at + 2]), replies[at + 3],
            (uint16_t)(replies[at + 4] + 256 * replies[at + 5])};
        told &= same(a, session[k].want);
        at += HEAD + a.written;
    }
    check("the recording's answers", told && at == r.wrote && still(replies + at, sizeof replies - at, 0x5A));

    /* in two pieces, the second from where the first stopped */
    again = l.run;
    tz_piece first = tz_resume(&l.config, &again, recording, 40, replies, sizeof replies);
    check("a first piece, cut in its fourth record", first.stop == TZ_STOP_CUT && first.read == 33 && first.count == 3
        && first.wrote == 3 * HEAD && again.standing.armed == 1 && again.standing.ticks == 1
        && again.standing.counts.a == 2 && again.standing.counts.p == 1);
    tz_piece second = tz_resume(&l.config, &again, recording + first.read, end - first.read, replies, sizeof replies);
    check("the recording in two pieces", first.count + second.count == 12 && first.wrote + second.wrote == r.wrote
        && second.stop == 0 && second.read == end - first.read && same_run(&again, &run));
    memset(replies, 0x5A, sizeof replies);
    again = l.run;
    first = tz_resume(&l.config, &again, recording, end, replies, TZ_REPLY - 1);
    check("too little room for one event", first.stop == TZ_STOP_FULL && first.read == 0 && first.count == 0 && first.wrote == 0
        && same_run(&again, &l.run) && still(replies, sizeof replies, 0x5A));
    /* a tick, and behind it a record of another kind, a tick with a body, a fault of one byte */
    static const uint8_t bad_records[3][9] = {{0, 0, 17, 0, 0, 0, 19, 0, 0}, {0, 0, 17, 0, 1, 0, 17, 0, 0}, {0, 0, 17, 0, 1, 0, 18, 0, 7}};
    for (size_t k = 0; k < 3; k++) {
        uint8_t stop = k == 0 ? TZ_STOP_KIND : TZ_STOP_LENGTH;
        memset(replies, 0x5A, sizeof replies);
        again = l.run;
        first = tz_resume(&l.config, &again, bad_records[k], k == 0 ? 8 : 9, replies, sizeof replies);
        check("a bad record behind a tick", first.stop == stop && first.read == 4 && first.count == 1 && first.wrote == HEAD
            && replies[0] == TZ_TICK && still(replies + HEAD, sizeof replies - HEAD, 0x5A));
    }
    memset(replies, 0x5A, sizeof replies);
    r = tz_replay(c, 41, recording, end, replies, sizeof replies);
    check("a refused image", r.load == TZ_PAST_END && r.offset == 30 && r.stop == 0 && r.read == 0 && r.count == 0
        && r.wrote == 0 && still(replies, sizeof replies, 0x5A));

    /* the judge and the enquiry */
    tz_judged j = tz_judge(pad, sizeof pad);
    tz_part part = tz_arguments(pad, sizeof pad);
    check("PAD judged", j.answer == 0 && j.id == 10 && j.count == 1 && part.offset == 10 && part.length == 1);
    j = tz_judge(g, 9);
    part = tz_arguments(g, 9);
    check("G short", j.answer == TZ_BAD_SIZE && j.id == 0 && j.count == 0 && part.offset == 0 && part.length == 0);
    check("nothing at all", tz_judge(g, 0).answer == TZ_SHORT && tz_load(c, 0).answer == TZ_EMPTY);

    builder();

    /* what the boundary itself refuses */
    int kept = 1;
    for (unsigned armed = 2; armed < 256; armed++) {
        tz_run bad = l.run;
        bad.standing.armed = (uint8_t)armed;
        kept &= all_refuse(&l.config, &bad, recording, end);
    }
    check("an armed byte that is no bool", kept);
    tz_run latched = run;
    latched.states[0] = 3;
    check("a run from elsewhere", all_refuse(&l.config, &latched, recording, end));
    tz_config wild = l.config;
    wild.numbers.nroutes = (size_t)-1;
    again = run;
    check("a configuration from elsewhere", all_refuse(&wild, &again, recording, end));
    wild = l.config;
    wild.args[511] = 1;
    check("a place not in use that is not 0", all_refuse(&wild, &again, recording, end));
    lend(&l.config, &again);
    kept = is_bare(tz_step_packet(&l.config, &again, pad, sizeof pad, out, TZ_ROOM - 1), TZ_NO_ROOM) && nothing_changed(&again);
    kept &= is_bare(tz_step_fault(&l.config, &again, 7, out, TZ_ROOM - 1), TZ_NO_ROOM) && nothing_changed(&again);
    check("room 259", kept);
    check("the configuration is as it was loaded", memcmp(&loaded, &l.config, sizeof loaded) == 0);
    return failed;
}
