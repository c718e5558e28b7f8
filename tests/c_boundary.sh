# The C boundary: the header, the archive and four C programs, compiled and run; one of them measures the stack, one prints what
# docs/FORMATS.md shows of a replay. On a processor that is not x86-64 they are compiled by the cross compiler and run under an
# emulator of the toolchain, where it has one.
set -eu
cd "$(dirname "$0")/.."
. bin/x86
x86_tools || exit 1
room=$(mktemp -d)
trap 'rm -rf "$room"' EXIT
bin/archive >"$room/log" 2>&1 || { cat "$room/log" >&2; exit 1; }
compile() { $X86_CC -std=c11 -Wall -Wextra -Wpedantic -Werror -O2 -Iinclude -o "$room/$1" "$2" target/staticlib/libexport.a; }
compile boundary tests/c/boundary.c
compile session examples/c/session.c
compile stack tests/c/stack.c
compile replies tests/c/replies.c
x86_run "$room/boundary"
x86_run "$room/stack"

# The header as C++, where there is a compiler for it; any processor's will do.
if command -v "${CXX:-c++}" >/dev/null; then
    echo '#include "tamezohishu.h"' | ${CXX:-c++} -x c++ -std=c++11 -Wall -Wextra -Wpedantic -Werror -Iinclude -fsyntax-only -
    echo "c boundary: the header as C++: ok"
else
    echo "c boundary: the header as C++: no compiler here, not tried"
fi
if [ "$(x86_run "$room/session")" = "0 0
30 20 0 0
11 100 0 0
10 20 2 5
10 10 1 6
dispatched 2, source 2" ]; then
    echo "c boundary: examples/c/session.c: ok"
else
    echo "c boundary: examples/c/session.c: not as expected" >&2
    exit 1
fi

# ended NAME STATUS WORDS: how the last run of the example ended, and what it said on standard error
ended() {
    [ "$status" != "$2" ] || [ "$(cat "$room/told")" != "$3" ] || return 0
    cat "$room/told" >&2
    echo "c boundary: examples/c/session.c: $1: exit status $status, not as expected" >&2
    exit 1
}

# The example where something goes wrong: an image that is refused (no route has the response of its fault row), a full disk, a
# reader that goes after a line, and one that has gone before.
sed 's/7, 0, 10, 0, 1, 1, 1, 0xAA/7, 0, 11, 0, 1, 1, 1, 0xAA/' examples/c/session.c >"$room/refused.c"
compile refused "$room/refused.c"
status=0
x86_run "$room/refused" >"$room/out" 2>"$room/told" || status=$?
ended "a refused image" 1 "session: image refused with 7: record at byte 30"
[ ! -s "$room/out" ] || { echo "c boundary: examples/c/session.c goes on with a refused image" >&2; exit 1; }
status=0
x86_run "$room/session" >/dev/full 2>"$room/told" || status=$?
ended "a full disk" 1 "session: standard output: No space left on device"
x86_run "$room/session" 2>"$room/told" | head -1 >"$room/out"
status=${PIPESTATUS[0]}
ended "a reader that goes" 0 ""
[ "$(cat "$room/out")" = "0 0" ] || { echo "c boundary: examples/c/session.c prints another first line" >&2; exit 1; }
mkfifo "$room/pipe"
exec 3<>"$room/pipe" 4>"$room/pipe" 3>&-
status=0
x86_run "$room/session" >&4 2>"$room/told" || status=$?
exec 4>&-
ended "a closed pipe" 0 ""
echo "c boundary: examples/c/session.c with a refused image, a full disk, a closed pipe: ok"

# and so the README shows it
awk '/^and it prints$/ { shown = 1 } shown && /^```/ { fence++; next } shown && fence == 1' README.md >"$room/shown"
if x86_run "$room/session" | cmp -s - "$room/shown"; then
    echo "c boundary: examples/c/session.c as README.md shows it: ok"
else
    echo "c boundary: README.md shows something else than examples/c/session.c prints" >&2
    exit 1
fi

# The answers of a replay in bytes are those that docs/FORMATS.md shows.
bin/hex examples/session/events.hex >"$room/events.rec" 2>/dev/null
x86_run "$room/replies" crates/step/data/path.cfg "$room/events.rec" >"$room/replied"
awk '/^The session of `events.rec` under C, an event a line/ { shown = 1 } shown && /^```/ { fence++; next } shown && fence == 1' \
    docs/FORMATS.md >"$room/shown"
if cmp -s "$room/replied" "$room/shown"; then
    echo "c boundary: the answers of a replay as docs/FORMATS.md shows them: ok"
else
    diff "$room/shown" "$room/replied" >&2 || true
    echo "c boundary: docs/FORMATS.md shows other answers of a replay" >&2
    exit 1
fi

# The example with a header of another number, newer and older: it says which, and calls nothing else.
number=$(sed -n 's/^#define TZ_ABI //p' include/tamezohishu.h)
for other in "$((number + 1)) header" "$((number - 1)) archive"; do
    mkdir -p "$room/other"
    sed "s/^#define TZ_ABI .*/#define TZ_ABI ${other% *}/" include/tamezohishu.h >"$room/other/tamezohishu.h"
    $X86_CC -std=c11 -O2 -I"$room/other" -o "$room/session" examples/c/session.c target/staticlib/libexport.a
    if x86_run "$room/session" >"$room/told" 2>&1 || [ "$(cat "$room/told")" != \
        "session: compiled with header ${other% *}, linked with archive $number: the ${other#* } is newer" ]; then
        cat "$room/told" >&2
        echo "c boundary: a header of number ${other% *}: not as expected" >&2
        exit 1
    fi
done
echo "c boundary: a header that is newer or older is told: ok"
