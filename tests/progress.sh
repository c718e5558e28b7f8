# How far the prover is: bin/progress with a stand-in for the prover, at a terminal and without, where all is proved and where not.
set -eu
cd "$(dirname "$0")/.."
room=$(mktemp -d)
trap 'rm -rf "$room"' EXIT
failed=0
bad() { echo "progress: $1" >&2; failed=1; }

# Four crates, in an order that is not that of the file: the prover takes b and d before c. It works in the folder of c, says
# nothing of a, which was proved before, and looks at d again, of which nothing has changed.
printf 'c: b d a\na:\nb: a\nd: a # a comment\nother: c\n' >"$room/crates.txt"
mkdir "$room/bin" "$room/crates" "$room/crates/c"
cat >"$room/bin/rt" <<'WORDS'
#!/bin/sh
[ "$*" = check ] && [ "${PWD##*/}" = c ] || { echo "rt $* in $PWD"; exit 2; }
echo "rt: chose --jobs 2 for b"
echo "fn b::one: proved"
echo "crate b: modules loaded=1 checked=35"
echo "logic=proved functions=1 sum=0"
echo "rt: chose --jobs 2 for d" >&2
echo "crate d: modules loaded=36 checked=0"
echo "logic=proved functions=1 sum=0"
echo "rt: chose --jobs 2 for c" >&2
[ ! -f ../../broken ] || { echo "crate c: modules loaded=3 checked=1"; echo "logic=not-proved"; exit 1; }
echo "crate c: modules loaded=3 checked=1"
echo "logic=proved functions=2 sum=0"
WORDS
chmod +x "$room/bin/rt"
progress=$PWD/bin/progress
cd "$room"
PATH=$room/bin:$PATH

# same NAME FILE EXPECTED
same() {
    printf '%s\n' "$3" >expected
    if sed -E 's/ \([0-9]+ s\)$/ (N s)/' "$2" | cmp -s - expected; then
        echo "progress: $1: ok"
    else
        diff expected "$2" >&2 || true
        bad "$1: not as expected"
    fi
}

"$progress" "make demo" rt check c >out 2>err || bad "exit status $?"
[ ! -s out ] || bad "something is on standard output"
same "without a terminal" err "make demo: proving; 4 crates in all
make demo: proved 2 of 4: b (N s)
make demo: proved 4 of 4: c (N s)
make demo: all 4 crates are proved (N s)"

python3 -c '
import os, pty, sys
pid, end = pty.fork()
if pid == 0:
    os.execv(sys.argv[1], sys.argv[1:])
said = b""
while True:
    try:
        some = os.read(end, 1024)
    except OSError:
        break
    if not some:
        break
    said += some
sys.stdout.write(said.decode().replace("\r\x1b[K", "\n").replace("\r\n", "\n").lstrip("\n"))' "$progress" "make demo" rt check c >said
same "at a terminal" said "make demo: proving 1 of 4: a
make demo: proving 2 of 4: b
make demo: proving 3 of 4: d
make demo: proving 4 of 4: c
make demo: all 4 crates are proved (N s)"

: >broken
status=0
"$progress" "bin/step" rt check c >out 2>err || status=$?
[ $status = 1 ] || bad "exit status $status where the prover fails with 1"
same "where something is not proved" err "bin/step: proving; 4 crates in all
bin/step: proved 2 of 4: b (N s)
rt: chose --jobs 2 for b
fn b::one: proved
crate b: modules loaded=1 checked=35
logic=proved functions=1 sum=0
rt: chose --jobs 2 for d
crate d: modules loaded=36 checked=0
logic=proved functions=1 sum=0
rt: chose --jobs 2 for c
crate c: modules loaded=3 checked=1
logic=not-proved"
exit $failed
