# `bin/hex` as its users run it: what it writes, what it says, and how it ends; a bad word writes nothing.
set -eu
hex=$(cd "$(dirname "$0")/.." && pwd -P)/bin/hex
room=$(mktemp -d)
trap 'rm -rf "$room"' EXIT
cd "$room"
failed=0

# ended NAME STATUS BYTES SAID: how the last run ended, which bytes it wrote, as hex digits, and what it said
ended() {
    wrote=$(od -An -v -tx1 out | tr -d ' \n')
    if [ "$status" = "$2" ] && [ "$wrote" = "$3" ] && [ "$(cat err)" = "$4" ]; then
        echo "hex: $1: ok"
    else
        echo "hex: $1: exit status $status, bytes $wrote, said: $(cat err)" >&2
        failed=1
    fi
}

# run ARGUMENT..: runs it with standard input as it is; leaves its exit status, `out` and `err`
run() {
    status=0
    "$hex" "$@" >out 2>err || status=$?
}

# typed TEXT ARGUMENT..: runs it with this text, in which printf's escapes are taken, on standard input
typed() {
    printf '%b' "$1" >in
    shift
    run "$@" <in
}

# ---- bytes ----
typed '06 00\n0a fF\n'
ended "bytes" 0 06000aff ''
typed '06 00\n' -
ended "- is standard input" 0 0600 ''
typed '0600 01 00aB\n'
ended "no spaces between the bytes of a word" 0 06000100ab ''
typed '\t06\t 00 # 0G ??\n# all\n\n01#02\n'
ended "comments, blank lines and tabs" 0 060001 ''
typed '06 00 # a\r\n01\r\n'
ended "lines that end in CR and LF" 0 060001 ''
typed '06 # a\r01\r'
ended "lines that end in CR" 0 0601 ''
typed '\0357\0273\027706 00\n'
ended "a byte order mark" 0 0600 ''
typed '06 00'
ended "a last line without its end" 0 0600 ''
typed ''
ended "nothing" 0 '' ''
printf '01' >one
printf '\357\273\27702 # 2' >two
printf '03\n' >three
run one two three
ended "files, of which a line never runs into the next" 0 010203 ''
typed '05' one - two
ended "files and standard input" 0 010502 ''
printf '04' >-4
run -- -4
ended "a file behind --" 0 04 ''

# ---- the checksum ----
typed '# G\n0A 00 10 00  18 01 C0 00 00 03 00 ?? 00 14\n'
ended "??" 0 0a0010001801c000000300ce0014 'bin/hex: line 2: ?? is CE'
typed '0A001000 1801C000000300??0014\n'
ended "?? in a word of many bytes" 0 0a0010001801c000000300ce0014 'bin/hex: line 1: ?? is CE'
printf '0A 00 10 00  18 01 C0 00 00 03 00 ?? 00 15\n' >g
run one g
ended "?? in one of two files" 0 010a0010001801c000000300cf0015 'bin/hex: g, line 1: ?? is CF'
alone='?? stands for the checksum alone: byte 7 of a packet in a record of kind 16'
# lone NAME TEXT: the mark is refused
lone() {
    typed "$2"
    ended "$1" 2 '' "bin/hex: line 1: $alone${3-}"
}
lone "?? by itself" '??\n'
lone "?? in a header" '?? 00 10 00  18 01 C0 00 00 03 00 CE 00 14\n'
lone "?? for a kind" '0A 00 ?? 00  18 01 C0 00 00 03 00 CE 00 14\n'
lone "?? as byte 6" '0A 00 10 00  18 01 C0 00 00 03 ?? CE 00 14\n'
lone "?? as an argument" '0B 00 10 00  18 01 C0 00 00 04 00 BB 00 64 ??\n'
lone "?? twice" '0A 00 10 00  18 01 C0 00 00 03 00 ?? ?? 14\n'
lone "?? in a tick" '08 00 11 00  18 01 C0 00 00 03 00 ??\n'
lone "?? in an image" '08 00 04 00  07 00 0A 00 01 01 01 ??\n'
lone "?? in a packet without a header" '18 01 C0 00 00 03 00 ?? 00 14\n'
lone "?? behind another record" '00 00 11 00 0A 00 10 00  18 01 C0 00 00 03 00 ?? 00 14\n'
lone "?? in a record that is cut" '0B 00 10 00  18 01 C0 00 00 03 00 ?? 00 14\n' '; this one says 11 bytes of packet, and 10 are here'
lone "?? in a record with another behind it" '0A 00 10 00  18 01 C0 00 00 03 00 ?? 00 14 00 00 11 00\n' \
    '; this one says 10 bytes of packet, and 14 are here'

# ---- words that are no bytes ----
typed '06 0G\n'
ended "a word that is no byte" 2 '' 'bin/hex: line 1: 0G is no byte'
typed '06 0\n01\n012 0x01 ?1\n?? 0\n'
ended "every bad word is told" 2 '' 'bin/hex: line 1: 0 is no byte
bin/hex: line 3: 012 is no byte
bin/hex: line 3: 0x01 is no byte
bin/hex: line 3: ?1 is no byte
bin/hex: line 4: 0 is no byte'
typed '06 \0033[2J \0377 \0303\0251\n'
ended "what is not printable is escaped" 2 '' 'bin/hex: line 1: \x1b[2J is no byte
bin/hex: line 1: \xff is no byte
bin/hex: line 1: é is no byte'
printf '0A 00 10 00  18 01 C0 00 00 03 00 ?? 00 15\n0\n' >half
run one half three
ended "nothing is said of what was not supplied" 2 '' 'bin/hex: half, line 2: 0 is no byte'
typed "$(printf '%0999d' 0)"
ended "a long word is cut where it is told" 2 '' "bin/hex: line 1: $(printf '%064d' 0) .. is no byte"

# ---- files and options ----
run nofile
ended "no such file" 2 '' 'bin/hex: nofile: No such file or directory'
run one nofile half
ended "no such file among others" 2 '' 'bin/hex: nofile: No such file or directory
bin/hex: half, line 2: 0 is no byte'
run .
ended "a folder" 2 '' 'bin/hex: .: Is a directory'
run - <.
ended "a folder on standard input" 2 '' 'bin/hex: standard input: Is a directory'
run - <&-
ended "no standard input" 2 '' 'bin/hex: standard input: Bad file descriptor'
run --hex one
ended "an unknown option" 2 '' 'bin/hex: --hex: there is no such option
bin/hex: usage: bin/hex [FILE..] > BYTES'
for option in --help -h; do
    run "$option" </dev/null
    if [ "$status" = 0 ] && [ ! -s err ] && grep -q '^usage: bin/hex' out && grep -q '^Example' out; then
        echo "hex: $option: ok"
    else
        echo "hex: $option: not as expected" >&2
        failed=1
    fi
done
# The example that is shown does what it says.
sed -n 's/^  echo \(.*\) | bin\/hex > one.rec$/\1/p' out | tr -d "'" >in
run - <in
ended "the example of --help" 0 0a0010001801c000000300ce0014 'bin/hex: line 1: ?? is CE'

# ---- output that fails, or that nobody reads ----
: >out
status=0
"$hex" one >/dev/full 2>err || status=$?
ended "a full disk" 2 '' 'bin/hex: standard output: No space left on device'
status=0
"$hex" one 2>err >&- || status=$?
ended "no standard output" 2 '' 'bin/hex: standard output: Bad file descriptor'
status=0
"$hex" nofile 2>/dev/full || status=$?
: >err
ended "standard error on a full disk" 2 '' ''
yes '00 01 02 03' | head -n 100000 >many
"$hex" many 2>err | head -c 4 >out
status=${PIPESTATUS[0]}
ended "a reader that has gone" 0 00010203 ''
run many many
if [ "$status" = 0 ] && [ "$(wc -c <out)" = 800000 ] && [ ! -s err ]; then
    echo "hex: 800,000 bytes: ok"
else
    echo "hex: 800,000 bytes: not as expected" >&2
    failed=1
fi
exit $failed
