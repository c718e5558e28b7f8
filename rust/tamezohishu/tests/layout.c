/* Sizes and places of the header's structs on x86-64, and its own sizes, held by a C compiler: the numbers of src/ffi.rs. */
#include "../../../include/tamezohishu.h"

#define SIZE(t, n) _Static_assert(sizeof(t) == n, #t)
#define PLACE(t, f, n) _Static_assert(offsetof(t, f) == n, #t "." #f)
#define NUMBER(c, n) _Static_assert(c == n, #c)

SIZE(tz_settings, 6);
PLACE(tz_settings, base, 4);
SIZE(tz_numbers, 32);
PLACE(tz_numbers, nroutes, 8);
PLACE(tz_numbers, nrows, 24);
SIZE(tz_config, 1184);
PLACE(tz_config, routeids, 32);
PLACE(tz_config, dests, 288);
PLACE(tz_config, protected_ids, 416);
PLACE(tz_config, faultids, 480);
PLACE(tz_config, responses, 544);
PLACE(tz_config, latching, 608);
PLACE(tz_config, argcounts, 640);
PLACE(tz_config, args, 672);
SIZE(tz_counts, 14);
SIZE(tz_standing, 18);
PLACE(tz_standing, ticks, 2);
PLACE(tz_standing, counts, 4);
SIZE(tz_run, 50);
PLACE(tz_run, states, 18);
SIZE(tz_judged, 6);
PLACE(tz_judged, count, 4);
SIZE(tz_part, 16);
SIZE(tz_built, 4);
PLACE(tz_built, written, 2);
SIZE(tz_loaded, 1256);
PLACE(tz_loaded, config, 16);
PLACE(tz_loaded, run, 1200);
SIZE(tz_answer, 8);
PLACE(tz_answer, written, 6);
SIZE(tz_left, 26);
PLACE(tz_left, answer, 18);
SIZE(tz_reached, 48);
PLACE(tz_reached, stop, 18);
PLACE(tz_reached, read, 24);
PLACE(tz_reached, wrote, 40);
SIZE(tz_replayed, 64);
PLACE(tz_replayed, stop, 16);
PLACE(tz_replayed, wrote, 40);
PLACE(tz_replayed, counts, 48);
NUMBER(TZ_ROUTES, 128);
NUMBER(TZ_PROTECTED_IDS, 32);
NUMBER(TZ_ROWS, 32);
NUMBER(TZ_ROW_ARGS, 16);
NUMBER(TZ_ROOM, 260);
NUMBER(TZ_REPLY, 266);
NUMBER(TZ_LONGEST_BUILT, 392);
