/*
 * The answers of a replay in bytes:  replies IMAGE RECORDING
 * Prints for each event the six bytes of its numbers and behind them those of its command, in hex, and last the numbers that
 * tz_replay hands back. docs/FORMATS.md shows what it prints; tests/c_boundary.sh compares.
 */
#include <stdio.h>
#include "tamezohishu.h"

/* The numbers of a reply, in bytes. */
enum { HEAD = TZ_REPLY - TZ_ROOM };

static uint8_t image[65536], recording[65536], out[65536];

static size_t read_all(const char *name, uint8_t *into, size_t room) {
    FILE *file = fopen(name, "rb");
    size_t n = 0;
    if (file != NULL) {
        n = fread(into, 1, room, file);
        fclose(file);
    }
    return n;
}

int main(int count, char **words) {
    size_t at = 0, k;
    tz_replayed r;
    if (count != 3) return 2;
    k = read_all(words[1], image, sizeof image);
    r = tz_replay(image, k, recording, read_all(words[2], recording, sizeof recording), out, sizeof out);
    while (at < r.wrote) {
        size_t end = at + HEAD + out[at + 4] + 256u * out[at + 5];
        for (k = at; k < end; k++) printf("%s%02X", k == at ? "" : k == at + HEAD ? "  " : " ", out[k]);
        printf("\n");
        at = end;
    }
    printf("load %u, offset %zu, stop %u, read %zu, count %zu, wrote %zu\n", r.load, r.offset, r.stop, r.read, r.count, r.wrote);
    printf("A %u, R %u, D %u, P %u, U %u, I %u, F %u\n", r.counts.a, r.counts.r, r.counts.d, r.counts.p, r.counts.u, r.counts.i,
        r.counts.f);
    return 0;
}
