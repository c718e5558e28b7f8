# The Rust side: the safe crate over the proved library, its example, the independent reading, and both of them side by side on
# made-up input. Works from a fresh clone, standing anywhere; bin/cargo says what it needs where something is missing.
set -eu
cd "$(dirname "$0")/.."
. bin/x86
x86_tools || exit 1
room=$(mktemp -d)
trap 'rm -rf "$room"' EXIT
failed=0

# quiet NAME COMMAND..: runs it; what it prints is shown only where it fails
quiet() {
    name=$1
    shift
    if "$@" >"$room/log" 2>&1; then
        echo "rust: $name: ok"
    else
        cat "$room/log" >&2
        echo "rust: $name: failed" >&2
        failed=1
    fi
}

# The archive is made from what stands in the repository.
if [ -d crates/export ]; then
    bin/archive >"$room/log" 2>&1 || { cat "$room/log" >&2; exit 1; }
fi
[ -f target/staticlib/libexport.a ] || { echo "rust: there is no target/staticlib/libexport.a to test" >&2; exit 1; }

# The C header has the sizes and places that the safe crate has.
quiet "the header's layout" "$X86_CC" -std=c11 -Wall -Wextra -Werror -fsyntax-only rust/tamezohishu/tests/layout.c

quiet "tests of every crate" bin/cargo test --workspace --locked

# The example prints what was loaded, and then the answers of document 01.
cat >"$room/paper" <<'LINES'
loaded: routes 2, protected ids 1, fault rows 1
30 20 0 0
11 100 0 0
14 0 0 0
10 20 2 5
11 100 0 0
14 0 0 0
15 0 0 0
30 20 0 0
10 10 1 6
10 10 1 6
13 0 0 0
34 0 0 0
LINES
session() { bin/cargo run -q --locked --release -p tamezohishu --example session; }
if session >"$room/session" && cmp "$room/paper" "$room/session"; then
    echo "rust: the session of document 01: ok"
else
    echo "rust: the session of document 01: failed" >&2
    failed=1
fi

# ended NAME STATUS WORDS: how the last run of the example ended, and what it said on standard error
ended() {
    if [ "$status" = "$2" ] && [ "$(cat "$room/told")" = "$3" ]; then
        echo "rust: the session with $1: ok"
    else
        cat "$room/told" >&2
        echo "rust: the session with $1: exit status $status, not as expected" >&2
        failed=1
    fi
}

# The example where something goes wrong. One with an image that is refused, as no route has the response of its fault row, is a
# crate of its own.
mkdir -p "$room/refused/src"
sed 's/0x07, 0x00, 0x0A/0x07, 0x00, 0x0B/' rust/tamezohishu/examples/session.rs >"$room/refused/src/main.rs"
cat >"$room/refused/Cargo.toml" <<CRATE
[package]
name = "refused"
version = "0.1.0"
edition = "2021"

[dependencies]
tamezohishu = { path = "$PWD/rust/tamezohishu" }

[workspace]
CRATE
status=0
CARGO_TARGET_DIR="$room/target" bin/cargo run -q --manifest-path "$room/refused/Cargo.toml" >"$room/out" 2>"$room/told" || status=$?
ended "a refused image" 1 "session: image refused with 7: record at byte 30: any other rule of the image broken"
if [ -s "$room/out" ]; then
    echo "rust: the session goes on with a refused image" >&2
    failed=1
fi
status=0
session >/dev/full 2>"$room/told" || status=$?
ended "a full disk" 1 "session: standard output: No space left on device (os error 28)"
session 2>"$room/told" | head -1 >"$room/out"
status=${PIPESTATUS[0]}
ended "a reader that goes" 0 ""
# A pipe whose reader has gone before.
mkfifo "$room/pipe"
exec 3<>"$room/pipe" 4>"$room/pipe" 3>&-
status=0
session >&4 2>"$room/told" || status=$?
exec 4>&-
ended "a closed pipe" 0 ""

# The proved library beside the reading. Its table is shown.
if bin/cargo run -q --locked --release -p differential >"$room/log" 2>&1; then
    sed 's/^/rust: differential: /' "$room/log"
else
    cat "$room/log" >&2
    echo "rust: differential: failed" >&2
    failed=1
fi
exit $failed
