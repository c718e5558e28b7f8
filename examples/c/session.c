/* A session from C: load a configuration, arm, dispatch a protected command, report a fault. */
#include <errno.h>
#include <signal.h>
#include <stdio.h>
#include <string.h>
#include "tamezohishu.h"

static const uint8_t c[] = {6, 0, 1, 0, 1, 0, 2, 0, 100, 0, 3, 0, 2, 0, 10, 0, 1, 3, 0, 2, 0, 20, 0, 2,
    2, 0, 3, 0, 20, 0, 8, 0, 4, 0, 7, 0, 10, 0, 1, 1, 1, 0xAA};
static const uint8_t g[] = {0x18, 1, 0xC0, 0, 0, 3, 0, 0xCE, 0, 0x14};
static const uint8_t arm[] = {0x18, 1, 0xC0, 0, 0, 4, 0, 0xBB, 0, 0x64, 2};

static void show(tz_answer a) { printf("%u %u %u %u\n", a.answer, a.id, a.dest, a.written); }

static int refused(const tz_loaded *l) {
    fprintf(stderr, "session: image refused with %u: record at byte %zu\n", l->answer, l->offset);
    return 1;
}

/* Whether what was printed has arrived. A reader that has gone, as head does once it has enough, is no failure. */
static int printed(void) {
    if ((!ferror(stdout) && fflush(stdout) == 0) || errno == EPIPE) return 0;
    fprintf(stderr, "session: standard output: %s\n", strerror(errno));
    return 1;
}

int main(void) {
    signal(SIGPIPE, SIG_IGN); /* a closed pipe is then told by stdio, and does not end the program */
    if (!tz_same_abi()) {
        fprintf(stderr, "session: compiled with header %u, linked with archive %u: the %s is newer\n", (unsigned)TZ_ABI,
            (unsigned)tz_abi(), tz_abi() < TZ_ABI ? "header" : "archive");
        return 1;
    }
    uint8_t out[TZ_ROOM] = {0};
    tz_loaded l = tz_load(c, sizeof c);
    if (l.answer != TZ_LOADED) return refused(&l);
    printf("%u %zu\n", l.answer, l.offset);
    show(tz_step_packet(&l.config, &l.run, g, sizeof g, out, sizeof out));
    show(tz_step_packet(&l.config, &l.run, arm, sizeof arm, out, sizeof out));
    show(tz_step_packet(&l.config, &l.run, g, sizeof g, out, sizeof out));
    show(tz_step_fault(&l.config, &l.run, 7, out, sizeof out));
    printf("dispatched %u, source %u\n", l.run.standing.counts.d, out[0] * 256u + out[1]);
    return printed();
}
