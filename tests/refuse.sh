# The planted fault is refused by a fact, as `make refuse` prints it and README.md shows it, and nothing of the repository changes.
set -eu
cd "$(dirname "$0")/.."
room=$(mktemp -d)
trap 'rm -rf "$room"' EXIT
failed=0
bad() { echo "refuse: $1" >&2; failed=1; }

# every file of the sources with its sum, and what git says of the folder
sources() { find bin crates docs examples include tests Makefile README.md crates.txt -path 'crates/*/out' -prune -o -type f -exec sha256sum {} + | sort -k2; }
state() { sources; git status --porcelain 2>/dev/null || true; }

state >"$room/before"
bin/refuse >"$room/said" 2>"$room/err" || { cat "$room/said" "$room/err" >&2; bad "it ended with another exit status than 0"; }
state >"$room/after"
cmp -s "$room/before" "$room/after" || { diff "$room/before" "$room/after" >&2 || true; bad "the repository is not as it was"; }

# the README shows these lines; only the seconds may be others
seconds() { sed -E 's/\b[0-9]+ s\b/N s/' "$1"; }
awk '/^\$ make refuse$/ { shown = 1; next } /^```/ { shown = 0 } shown' README.md >"$room/shown"
seconds "$room/said" >"$room/a"
seconds "$room/shown" >"$room/b"
cmp -s "$room/a" "$room/b" || { diff "$room/b" "$room/a" >&2 || true; bad "README.md shows something else than make refuse prints"; }

# Where the fault does not fit the sources, or the prover is missing, it says so and does not end with 0.
mkdir "$room/copy"
tar -cf - --exclude='crates/*/out' bin crates crates.txt | tar -xf - -C "$room/copy"
sed -i 's/^    5 + args.len() as u16$/    5 + (args.len() as u16)/' "$room/copy/crates/step_effects/src/dispatch.rt"
mkdir "$room/none"
cat >"$room/none/rt" <<'WORDS'
#!/bin/sh
exit 0
WORDS
chmod +x "$room/none/rt"
status=0
PATH=$room/none:$PATH "$room/copy/bin/refuse" >/dev/null 2>"$room/err" || status=$?
if [ $status != 2 ] || ! grep -q 'has no line, or two' "$room/err"; then bad "a fault that does not fit the sources: exit status $status"; fi
# and a prover that takes everything lets the fault through
status=0
PATH=$room/none:$PATH bin/refuse >/dev/null 2>"$room/err" || status=$?
if [ $status != 1 ] || ! grep -q 'NOT REFUSED' "$room/err"; then bad "a fault that is let through: exit status $status"; fi
[ $failed = 0 ] && echo "refuse: the planted fault is refused by a fact, as README.md shows it: ok"
exit $failed
