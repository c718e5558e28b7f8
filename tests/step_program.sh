# The step program on inputs that a user could hand it: no configuration, an empty one, one too long, and records that are cut,
# of another kind or of wrong length. What it prints is compared whole.
set -eu
cd "$(dirname "$0")/.."
room=$(mktemp -d)
trap 'rm -rf "$room"' EXIT
c=crates/step/data/path.cfg
failed=0

# same NAME CONFIG EXPECTED: what bin/step prints for the records on standard input
same() {
    if [ "$(bin/step "$2" 2>/dev/null)" = "$3" ]; then
        echo "step program: $1: ok"
    else
        echo "step program: $1: not as expected" >&2
        failed=1
    fi
}

bytes() { printf '%b' "$1"; }

: >"$room/empty"
same "no configuration" "$room/none" "5 0
bad" </dev/null
same "an empty configuration" "$room/empty" "5 0
bad" </dev/null
same "no records" "$c" "0 0" </dev/null
# The image is the first 65,536 bytes of its file. Behind C's 42 bytes a route whose body is far too long: whole it is refused
# for its length (3), and where the file is cut it passes the image's end, which is asked before (1).
# route FILE LENGTH LOW HIGH: C and a record of kind 2 with so many bytes
route() { { cat "$c"; bytes "\\$3\\$4\\0002\\0000"; head -c "$2" /dev/zero; } >"$1"; }
route "$room/long" 65535 0377 0377
same "a configuration of 65,581 bytes, cut behind 65,536" "$room/long" "1 42
bad" </dev/null
route "$room/past" 65491 0323 0377
same "a configuration of 65,537 bytes, cut behind 65,536" "$room/past" "1 42
bad" </dev/null
route "$room/most" 65490 0322 0377
same "a configuration of 65,536 bytes, not cut" "$room/most" "3 42
bad" </dev/null
bytes '\0000\0000\0021\0000' | same "a tick" "$c" "0 0
14 0 0 0"
bytes '\0000\0000\0021\0000\0000\0000\0021' | same "a header cut" "$c" "0 0
14 0 0 0
bad"
bytes '\0012\0000\0020\0000\0030\0001' | same "a body cut" "$c" "0 0
bad"
bytes '\0000\0000\0023\0000' | same "kind 19" "$c" "0 0
bad"
bytes '\0001\0000\0021\0000\0000' | same "a tick with a body" "$c" "0 0
bad"
bytes '\0001\0000\0022\0000\0007' | same "a fault of one byte" "$c" "0 0
bad"
bytes '\0002\0000\0022\0000\0007\0000' | same "a fault" "$c" "0 0
10 10 1 6"
bytes '\0000\0000\0020\0000' | same "an empty packet" "$c" "0 0
22 0 0 0"
{ bytes '\0377\0377\0020\0000'; head -c 65535 /dev/zero; bytes '\0000\0000\0021\0000'; } | same "the longest packet" "$c" "0 0
23 0 0 0
14 0 0 0"

# an input longer than any buffer: 40,000 ticks, 160,000 bytes
i=0
while [ $i -lt 40 ]; do bytes '\0000\0000\0021\0000'; i=$((i + 1)); done >"$room/forty"
i=0
while [ $i -lt 1000 ]; do cat "$room/forty"; i=$((i + 1)); done >"$room/ticks"
if [ "$(bin/step "$c" <"$room/ticks" | grep -c '^14 0 0 0$')" = 40000 ]; then
    echo "step program: 40,000 ticks: ok"
else
    echo "step program: 40,000 ticks: not as expected" >&2
    failed=1
fi

# ---- how it is called ----
# called NAME STATUS OUT SAID ARGUMENT..: its exit status, what it prints and what it says
called() {
    name=$1 wanted=$2 printed=$3 said=$4
    shift 4
    status=0
    bin/step "$@" >"$room/out" 2>"$room/err" || status=$?
    if [ "$status" = "$wanted" ] && [ "$(cat "$room/out")" = "$printed" ] && [ "$(cat "$room/err")" = "$said" ]; then
        echo "step program: $name: ok"
    else
        echo "step program: $name: exit status $status, not as expected: $(cat "$room/err")" >&2
        failed=1
    fi
}
called "an image that is refused is exit status 0" 0 "5 0
bad" '' "$room/empty" </dev/null
called "a configuration that can't be read is said" 0 "5 0
bad" "bin/step: $room/none can't be read, and counts as an empty image" "$room/none" </dev/null
called "a folder for a configuration is said" 0 "5 0
bad" "bin/step: $room can't be read, and counts as an empty image" "$room" </dev/null
bytes '\0000\0000\0023\0000' >"$room/bad"
called "a bad record is exit status 0" 0 "0 0
bad" '' "$c" <"$room/bad"
called "a folder on standard input" 2 '' "bin/step: standard input is a folder, and no recording" "$c" <"$room"
called "no standard input" 2 '' "bin/step: there is no standard input" "$c" <&-
called "no configuration named" 2 '' "usage: bin/step CONFIG < RECORDS" </dev/null
called "two configurations" 2 '' "usage: bin/step CONFIG < RECORDS" "$c" "$c" </dev/null
for option in -h --help; do
    if bin/step "$option" </dev/null >"$room/out" 2>"$room/err" && [ ! -s "$room/err" ] && grep -q '^usage: bin/step' "$room/out" &&
        grep -q 'exit status is 0 also where it prints bad' "$room/out"; then
        echo "step program: $option: ok"
    else
        echo "step program: $option: not as expected" >&2
        failed=1
    fi
done
exit $failed
