# What needs root is said and asked for: bin/x86 on made-up machines, with another processor or without the crates, as root and
# not, with a terminal and without. apt-get and dpkg are stand-ins that write down what they are called with.
set -eu
cd "$(dirname "$0")/.."
room=$(mktemp -d)
trap 'rm -rf "$room"' EXIT
unset TZ_INSTALL
failed=0
bad() { echo "installing: $1" >&2; failed=1; }

# stands NAME TEXT: a command of the made-up machine
mkdir "$room/bin"
stands() {
    printf '#!/bin/sh\n%s\n' "$2" >"$room/bin/$1"
    chmod +x "$room/bin/$1"
}
# $ROOM, $MACHINE and $USER_ID are read when the stand-in runs
# shellcheck disable=SC2016
{
    stands id 'echo "$USER_ID"'
    stands uname 'echo "$MACHINE"'
    stands cargo '[ -f "$ROOM/crates" ]'
    stands rustc '[ -f "$ROOM/compilers" ] && echo "$ROOM/lib"'
    stands apt-get 'echo "apt-get $*" >>"$ROOM/called"; case $* in *gcc-x86-64*) touch "$ROOM/compilers" ;; esac; case $* in *clap*) touch "$ROOM/crates" ;; esac'
    stands dpkg 'echo "dpkg $*" >>"$ROOM/called"'
    stands x86_64-linux-gnu-gcc 'exit 0'
}
mkdir "$room/lib"
: >"$room/lib/libstd-0.rlib"

# The part under test: what is asked for is what bin/x86 finds missing. Debian's folder of crates is not looked at, and no other
# compiler than the stand-in: a real one would hide what is missing.
cat >"$room/ready" <<'WORDS'
set -eu
. bin/x86
CRATE_FOLDER=$ROOM/none
x86_rust() { [ -f "$ROOM/compilers" ]; }
crates_found() { [ -f "$ROOM/crates" ]; }
x86_ready rust && echo "ready: crates of $X86_CRATES"
WORDS

# on MACHINE USER_ID ANSWER TERMINAL: runs it there; leaves `status`, and the files said and called
on() {
    rm -f "$room/compilers" "$room/crates" "$room/called"
    : >"$room/called"
    status=0
    if [ "$4" = terminal ]; then
        ROOM=$room MACHINE=$1 USER_ID=$2 PATH=$room/bin:$PATH python3 -c '
import os, pty, sys
pid, end = pty.fork()
if pid == 0:
    os.execvp("sh", ["sh", os.environ["ROOM"] + "/ready"])
os.write(end, (sys.argv[1] + "\n").encode())
said = b""
while True:
    try:
        some = os.read(end, 1024)
    except OSError:
        break
    if not some:
        break
    said += some
sys.stdout.write(said.decode().replace("\r", ""))
sys.exit(os.waitstatus_to_exitcode(os.waitpid(pid, 0)[1]))' "$3" >"$room/said" 2>&1 || status=$?
    else
        ROOM=$room MACHINE=$1 USER_ID=$2 TZ_INSTALL=$3 PATH=$room/bin:$PATH sh "$room/ready" </dev/null >"$room/said" 2>&1 || status=$?
    fi
}

# ended NAME STATUS CALLED WORDS..: how it ended, what was called, and lines that were said
ended() {
    name=$1 before=$failed
    [ "$status" = "$2" ] || bad "$name: exit status $status and not $2"
    printf '%s' "$3" | cmp -s - "$room/called" || bad "$name: what was called is not as expected: $(cat "$room/called")"
    shift 3
    for words in "$@"; do grep -qF -e "$words" "$room/said" || bad "$name: it did not say: $words"; done
    if [ $failed = "$before" ]; then echo "installing: $name: ok"; else cat "$room/said" >&2; fi
}

compilers='apt-get install -y --no-install-recommends gcc-x86-64-linux-gnu libc6-dev-amd64-cross rustc-web libstd-rust-web-dev:amd64'
crates='apt-get install -y --no-install-recommends librust-clap-dev librust-csv-dev'
both="dpkg --add-architecture amd64
apt-get update
$compilers
$crates
"
on aarch64 0 '' none
ended "root, no terminal" 0 "$both" "As root, this would be run:" "    dpkg --add-architecture amd64" "    apt-get update" "    $compilers" "    $crates" ready
on x86_64 0 '' none
ended "root, x86-64: the crates alone" 0 "apt-get update
$crates
" "    $crates" "ready: crates of debian"
on aarch64 0 no none
ended "root, answered no in advance" 1 '' "    $compilers" "    $crates" "nothing was installed"
on x86_64 0 no none
ended "x86-64, answered no: the registry is asked" 0 '' "    $crates" "cargo asks its registry" "ready: crates of registry"
on aarch64 1000 '' none
ended "not root" 1 '' "They are installed by root, with" "    dpkg --add-architecture amd64" "    $compilers" "    $crates"
on aarch64 1000 yes none
ended "not root, and yes in advance" 1 '' "They are installed by root, with"
on aarch64 0 yes terminal
ended "a terminal, yes" 0 "$both" "Run it? yes or no:" ready
on aarch64 0 y terminal
ended "a terminal, something else than yes" 1 '' "Run it? yes or no:" "nothing was installed"
exit $failed
