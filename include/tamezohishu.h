/*
 * The onboard command path, for C. Link with target/staticlib/libexport.a (x86-64 Linux), which `bin/archive` writes
 * once every function in it is proved to meet its contract. docs/EVIDENCE.md says what is proved of each.
 *
 * Every function here takes any bytes, any configuration and any run, and answers: each returns, and none reads or writes
 * outside what it is lent. A state is kept by whoever calls; a step is lent it, copies no table, and changes the run where it
 * stands. What the caller owes is C's own: a pointer to so many bytes (not null, even where the length is 0), or to a
 * configuration or a run; run and output overlap nothing else that is lent; during the call nothing else touches the run or
 * the output, and nothing writes the configuration or the input. Beyond that two calls share nothing, so threads need no lock,
 * and may share a configuration.
 */
#ifndef TAMEZOHISHU_H
#define TAMEZOHISHU_H

#include <stddef.h>
#include <stdint.h>

#ifdef __cplusplus
extern "C" {
#endif

/* ---- which header this is ---- */

/*
 * One number that moves with every change of a struct, a signature or the meaning of a number here; compare at the start. A
 * program that was compiled with another header than its archive's reads and writes the wrong places, or takes one number for
 * another, and nothing else would tell. 3: the settings of a configuration, and what a run has beside its fault states, are
 * structs of their own (tz_settings, tz_standing), which the lent steps take by value.
 */
#define TZ_ABI 3

/* The number of the archive. */
uint32_t tz_abi(void);

/* Whether the archive has the structs, signatures and numbers of this header: 1 or 0. */
static inline int tz_same_abi(void) {
    return tz_abi() == TZ_ABI;
}

/* ---- numbers ---- */

/* answers of loading: 0, or the first refusal that fits the first bad record */
enum {
    TZ_LOADED = 0,
    TZ_PAST_END = 1,        /* header or body passes the end of the image */
    TZ_BAD_KIND = 2,        /* kind not 1 to 4 */
    TZ_BAD_LENGTH = 3,      /* body length wrong for the kind, or n above 16 */
    TZ_BAD_ORDER = 4,       /* first record not kind 1, a second kind 1, a kind that falls, an id not above the one before */
    TZ_EMPTY = 5,           /* empty image */
    TZ_TOO_MANY = 6,        /* one row more than the limit */
    TZ_BROKEN_RULE = 7      /* any other rule of the image broken */
};

/* answers of a step; the judge by itself answers 0 or one of 22 to 29 */
enum {
    TZ_DISPATCHED = 10,         /* command dispatched */
    TZ_ARMED = 11,              /* arm taken */
    TZ_DONE = 12,               /* own command done */
    TZ_QUIET = 13,              /* fault known, its response disabled or latched */
    TZ_TICK = 14,               /* tick */
    TZ_UNARMED = 15,            /* tick that ended the armed state */
    TZ_BAD_STATE = 20,          /* state breaks its rules */
    TZ_NO_ROOM = 21,            /* output room below 260 bytes */
    TZ_SHORT = 22,              /* packet below 6 bytes */
    TZ_BAD_SIZE = 23,           /* packet size not 7 + length field */
    TZ_BAD_VERSION = 24,        /* version not 0 */
    TZ_BAD_TYPE = 25,           /* type not telecommand */
    TZ_NO_SECONDARY = 26,       /* no secondary header */
    TZ_BAD_XOR = 27,            /* XOR not zero */
    TZ_SHORT_DATA = 28,         /* data length - pads below 4 */
    TZ_TOO_LONG = 29,           /* more than 255 arguments */
    TZ_PROTECTED = 30,          /* protected and unarmed */
    TZ_BAD_COUNT = 31,          /* own command, wrong argument count */
    TZ_NO_FAULT = 32,           /* own command, fault id not in the table */
    TZ_UNKNOWN = 33,            /* id neither own nor routed */
    TZ_UNKNOWN_FAULT = 34       /* fault id not in the table */
};

/* answers of the builder: 0, or the first refusal in the order of the numbers */
enum {
    TZ_BUILT = 0,
    TZ_APID_TOO_HIGH = 40,      /* APID above 2,047 */
    TZ_COUNT_TOO_HIGH = 41,     /* sequence count above 16,383 */
    TZ_TOO_MANY_ARGS = 42,      /* more than 255 arguments */
    TZ_TOO_MANY_PADS = 43,      /* more than 127 pads */
    TZ_OUTPUT_TOO_SMALL = 44    /* output too small */
};

/* why tz_resume and tz_replay stopped: 0, TZ_BAD_STATE (tz_resume only), or one of these, which mean nothing else */
enum {
    TZ_STOP_END = 0,            /* all of the recording was read; of tz_replay where `load` is 0 */
    TZ_STOP_CUT = 60,           /* a record is cut */
    TZ_STOP_KIND = 61,          /* a record is of another kind than 16, 17 and 18 */
    TZ_STOP_LENGTH = 62,        /* a record has a wrong length for its kind */
    TZ_STOP_FULL = 63           /* the output is full: an event was left, and less than 266 bytes for it */
};

enum {
    TZ_ROUTES = 128,    /* most routes */
    TZ_PROTECTED_IDS = 32,  /* most protected ids */
    TZ_ROWS = 32,       /* most fault rows */
    TZ_ROW_ARGS = 16,   /* argument places of a fault row */
    TZ_ROOM = 260,      /* output room that a step asks for */
    TZ_LONGEST_BUILT = 392, /* the longest packet that the builder makes: 10 bytes, 255 arguments, 127 pads */
    TZ_REPLY = 266      /* output room that an event of a replay asks for: six bytes of numbers and a step's room */
};

/*
 * Bytes of the stack that a function takes at most, from its return address down. tests/c/stack.c measures them and holds them
 * against these numbers, of the archive as it is built here. Beside them a call has its arguments on the stack, 128 bytes at
 * most, and the struct that it hands back, wherever the caller wants it. In a program that binds functions at their first use,
 * the first memcpy and memset take the loader's stack besides: link with -z now, or statically.
 */
enum {
    TZ_STACK_ALONE = 64,    /* tz_abi 8, tz_judge 8, tz_arguments 16, tz_build 64 */
    TZ_STACK_STEP = 1024,   /* tz_lent_packet 352, tz_lent_tick 280, tz_lent_fault 328, tz_lent_resume 576: so the steps too */
    TZ_STACK_LOAD = 8192    /* tz_load 2,664, tz_replay 4,088: they build the tables there */
};

/* ---- the state ---- */

/* What the records set of which an image has at most one: today kind 1, basics. */
typedef struct tz_settings {
    uint16_t ground;    /* source number of the ground */
    uint16_t fault;     /* source number of fault responses */
    uint16_t base;      /* own ids are base to base + 7 */
} tz_settings;

/* The numbers of a configuration: its settings, and how many rows of each table are in use. */
typedef struct tz_numbers {
    tz_settings settings;
    size_t nroutes;     /* routes in use */
    size_t nprotected;  /* protected ids in use */
    size_t nrows;       /* fault rows in use */
} tz_numbers;

/* The configuration. It comes from tz_load and is only ever read. Places that are not in use are 0. */
typedef struct tz_config {
    tz_numbers numbers;
    uint16_t routeids[TZ_ROUTES];               /* command ids, rising */
    uint8_t dests[TZ_ROUTES];                   /* destination of each, 1 to 31 */
    uint16_t protected_ids[TZ_PROTECTED_IDS];   /* rising */
    uint16_t faultids[TZ_ROWS];                 /* rising */
    uint16_t responses[TZ_ROWS];                /* response command id of each */
    uint8_t latching[TZ_ROWS];                  /* 0 or 1 */
    uint8_t argcounts[TZ_ROWS];                 /* argument bytes in use, 0 to 16 */
    uint8_t args[TZ_ROWS * TZ_ROW_ARGS];        /* argument j of row k at k * 16 + j */
} tz_config;

/* The seven counters, each modulo 65,536. */
typedef struct tz_counts {
    uint16_t a;     /* accepted packets */
    uint16_t r;     /* rejected packets */
    uint16_t d;     /* commands dispatched */
    uint16_t p;     /* protected commands stopped */
    uint16_t u;     /* ids neither own nor routed */
    uint16_t i;     /* own commands refused */
    uint16_t f;     /* faults */
} tz_counts;

/* What a run has beside its fault states: the arm record and the counters. */
typedef struct tz_standing {
    uint8_t armed;              /* 0 or 1 */
    uint16_t ticks;             /* ticks that remain, 0 where the timeout is 0 */
    tz_counts counts;
} tz_standing;

/*
 * The run: what steps change. `standing.armed` is 0 or 1. Any other number breaks the state's rules: such a call answers 20 and
 * leaves the run as it was. A run from elsewhere is judged by each step in the same way: 20 where a rule breaks, and nowhere
 * else. So 20 is no test for damage: a run whose `armed` was flipped to 1 while no ticks remain, whose counters are others, or
 * that belongs to another configuration and happens to fit, keeps the rules.
 */
typedef struct tz_run {
    tz_standing standing;
    uint8_t states[TZ_ROWS];    /* 0 disabled, 1 enabled, 2 latched */
} tz_run;

/* ---- what the functions hand back ---- */

/* The judge: 0 with command id and argument count, or the first refusal and zeros. */
typedef struct tz_judged {
    uint8_t answer;
    uint16_t id;
    uint8_t count;
} tz_judged;

/* A part of the caller's packet. */
typedef struct tz_part {
    size_t offset;
    size_t length;
} tz_part;

/* The builder: 0 and the bytes written, or the first refusal and 0. */
typedef struct tz_built {
    uint8_t answer;
    uint16_t written;
} tz_built;

/* Loading: 0 and offset 0 with the state, or the refusal and the offset of the first bad record with a state all zero. */
typedef struct tz_loaded {
    uint8_t answer;
    size_t offset;
    tz_config config;
    tz_run run;
} tz_loaded;

/* The four numbers of an answer. The id is set for 10, 11, 12 and 30 to 33, destination and bytes written for 10 only. */
typedef struct tz_answer {
    uint8_t answer;
    uint16_t id;
    uint8_t dest;
    uint16_t written;
} tz_answer;

/*
 * A piece of a recording. `stop` is 0 where all of it was read, 60, 61 or 62 at the first bad record (cut, of another kind, of
 * wrong length), 20 where the state breaks its rules, 63 where an event was left and less than 266 bytes of the output. The
 * state is judged first, even for an empty recording; then each record before the room for its event. What was answered
 * before a stop stands; 20 says that nothing was read.
 */
typedef struct tz_piece {
    uint8_t stop;
    size_t read;    /* bytes of the recording that were read; the bad record begins there */
    size_t count;   /* events that were answered */
    size_t wrote;   /* bytes of the output that were written */
} tz_piece;

/*
 * A recording under an image: the load's answer and offset, then as in tz_piece, and the counters behind the last answer. Where
 * the image is refused all numbers behind the offset are 0, and nothing is written.
 */
typedef struct tz_replayed {
    uint8_t load;
    size_t offset;
    uint8_t stop;
    size_t read;
    size_t count;
    size_t wrote;
    tz_counts counts;
} tz_replayed;

/* ---- the functions ---- */

/* Judges a packet by itself. */
tz_judged tz_judge(const uint8_t *packet, size_t length);

/* Where the arguments of a packet stand: offset 10 and their number, or 0 and 0 for a packet that the judge refuses. */
tz_part tz_arguments(const uint8_t *packet, size_t length);

/*
 * Builds a telecommand packet at the start of the output: version 0, type telecommand, secondary header, APID; sequence flags
 * both set, count; length field; function code with the number of pads and its high bit zero; checksum; command id; arguments;
 * zero pads. That is 10 + args_length + pads bytes, at most 392; later bytes stay. A refusal writes nothing. What it built, the
 * first `written` bytes of the output, tz_judge accepts with the same id and the same number of arguments, and tz_arguments
 * tells where in them the same argument bytes stand. C cuts a number that is too large for uint16_t before the call,
 * and a cut id is another command that nothing refuses: see that numbers fit first. `args` is not null, even where there are
 * none.
 */
tz_built tz_build(uint16_t apid, uint16_t count, uint16_t id, const uint8_t *args, size_t args_length, uint16_t pads, uint8_t *out,
    size_t room);

/* Loads a configuration image. */
tz_loaded tz_load(const uint8_t *image, size_t length);

/*
 * A recording under an image, from its start state. Its records and the output are those of tz_resume.
 */
tz_replayed tz_replay(const uint8_t *image, size_t image_length, const uint8_t *recording, size_t length, uint8_t *out, size_t room);

/* ---- lent ---- */

/*
 * The steps as the archive has them, for wrappers in other languages; from C use those below. They are lent the columns of a
 * configuration and the fault states of a run, each a pointer to its array; the rest of both goes by value. Of the run they
 * hand back all but the fault states, which they change where they stand (tz_lent_tick leaves them). Everything that is said of
 * the steps below holds for these.
 */

/* What a step leaves beside the fault states. */
typedef struct tz_left {
    tz_standing standing;
    tz_answer answer;
} tz_left;

/* What a piece of a recording leaves beside the fault states, and what it came to: as in tz_piece. */
typedef struct tz_reached {
    tz_standing standing;
    uint8_t stop;
    size_t read;
    size_t count;
    size_t wrote;
} tz_reached;

tz_left tz_lent_packet(tz_numbers numbers, const uint16_t routeids[TZ_ROUTES], const uint8_t dests[TZ_ROUTES],
    const uint16_t protected_ids[TZ_PROTECTED_IDS], const uint16_t faultids[TZ_ROWS], const uint16_t responses[TZ_ROWS],
    const uint8_t latching[TZ_ROWS], const uint8_t argcounts[TZ_ROWS], const uint8_t args[TZ_ROWS * TZ_ROW_ARGS],
    tz_standing standing, uint8_t states[TZ_ROWS],
    const uint8_t *packet, size_t length, uint8_t *out, size_t room);
tz_left tz_lent_tick(tz_numbers numbers, const uint16_t routeids[TZ_ROUTES], const uint8_t dests[TZ_ROUTES],
    const uint16_t protected_ids[TZ_PROTECTED_IDS], const uint16_t faultids[TZ_ROWS], const uint16_t responses[TZ_ROWS],
    const uint8_t latching[TZ_ROWS], const uint8_t argcounts[TZ_ROWS], const uint8_t args[TZ_ROWS * TZ_ROW_ARGS],
    tz_standing standing, const uint8_t states[TZ_ROWS]);
tz_left tz_lent_fault(tz_numbers numbers, const uint16_t routeids[TZ_ROUTES], const uint8_t dests[TZ_ROUTES],
    const uint16_t protected_ids[TZ_PROTECTED_IDS], const uint16_t faultids[TZ_ROWS], const uint16_t responses[TZ_ROWS],
    const uint8_t latching[TZ_ROWS], const uint8_t argcounts[TZ_ROWS], const uint8_t args[TZ_ROWS * TZ_ROW_ARGS],
    tz_standing standing, uint8_t states[TZ_ROWS],
    uint16_t fault, uint8_t *out, size_t room);
tz_reached tz_lent_resume(tz_numbers numbers, const uint16_t routeids[TZ_ROUTES], const uint8_t dests[TZ_ROUTES],
    const uint16_t protected_ids[TZ_PROTECTED_IDS], const uint16_t faultids[TZ_ROWS], const uint16_t responses[TZ_ROWS],
    const uint8_t latching[TZ_ROWS], const uint8_t argcounts[TZ_ROWS], const uint8_t args[TZ_ROWS * TZ_ROW_ARGS],
    tz_standing standing, uint8_t states[TZ_ROWS],
    const uint8_t *recording, size_t length, uint8_t *out, size_t room);

/* ---- the steps ---- */

/* The run as a step left it; the fault states stand there already. */
static inline tz_answer tz_take_left(tz_run *run, tz_left left) {
    run->standing = left.standing;
    return left.answer;
}

/*
 * The steps. Each changes the run where it stands, and hands back the answer. Output is written for answer 10 only, from its
 * start: source and command id (big-endian, two bytes each), argument count (one byte), arguments; later bytes stay. 260 bytes
 * of room are asked for, whatever is written. Answers 20 and 21 leave run and output as they were. Nothing of the configuration
 * is copied but its numbers; each call judges the whole state, and so reads every row of the tables. tz_resume does so once for
 * many events.
 */
static inline tz_answer tz_step_packet(const tz_config *config, tz_run *run, const uint8_t *packet, size_t length, uint8_t *out,
    size_t room) {
    return tz_take_left(run, tz_lent_packet(config->numbers, config->routeids, config->dests, config->protected_ids,
        config->faultids, config->responses, config->latching, config->argcounts, config->args, run->standing,
        run->states, packet, length, out, room));
}

static inline tz_answer tz_step_tick(const tz_config *config, tz_run *run) {
    return tz_take_left(run, tz_lent_tick(config->numbers, config->routeids, config->dests, config->protected_ids,
        config->faultids, config->responses, config->latching, config->argcounts, config->args, run->standing,
        run->states));
}

static inline tz_answer tz_step_fault(const tz_config *config, tz_run *run, uint16_t fault, uint8_t *out, size_t room) {
    return tz_take_left(run, tz_lent_fault(config->numbers, config->routeids, config->dests, config->protected_ids,
        config->faultids, config->responses, config->latching, config->argcounts, config->args, run->standing,
        run->states, fault, out, room));
}

/*
 * A piece of a recording. A recording is a run of records: body length and kind, two bytes each, little-endian, then the body;
 * kind 16 is a packet, 17 a tick with no body, 18 a fault with its two-byte id, little-endian. For each event the output gets
 * six bytes, answer, id (two bytes, little-endian), destination, bytes written (two bytes, little-endian), and then the bytes of
 * its command, as a step writes them; later bytes stay. The state is judged once a call, however many events there are. An event
 * then looks at no more than 8 route ids, 6 protected ids and 6 fault ids, where they stand. The run is left as the last answer
 * left it.
 */
static inline tz_piece tz_resume(const tz_config *config, tz_run *run, const uint8_t *recording, size_t length, uint8_t *out,
    size_t room) {
    tz_reached reached = tz_lent_resume(config->numbers, config->routeids, config->dests, config->protected_ids,
        config->faultids, config->responses, config->latching, config->argcounts, config->args, run->standing,
        run->states, recording, length, out, room);
    tz_piece piece;
    run->standing = reached.standing;
    piece.stop = reached.stop;
    piece.read = reached.read;
    piece.count = reached.count;
    piece.wrote = reached.wrote;
    return piece;
}

#ifdef __cplusplus
}
#endif

#endif
