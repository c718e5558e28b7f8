# `ground judge` and `ground config`, as their users run them: what they print, what they say, what they write and how they end.
set -eu
# shellcheck source=tests/ground_runs
. "$(dirname "$0")/ground_runs"

hex='expected two hex digits a byte, with or without spaces between bytes'
a_number='expected a number from 0 to 65,535, in decimal or in hex after 0x'
a_byte='expected a number from 0 to 255, in decimal or in hex after 0x'
G='18 01 C0 00 00 03 00 CE 00 14'
ARM='18 01 C0 00 00 04 00 BB 00 64 02'
PAD='18 01 C0 00 00 05 01 D2 00 0A 05 00'
G_ok='0 accepted: command 20, no arguments, no pads
'
ARM_ok='0 accepted: command 100, arguments 02, no pads
'
PAD_ok='0 accepted: command 10, arguments 05, 1 pad
'

# helped WORDS: the help is printed, with examples
helped() {
    # shellcheck disable=SC2086
    run $1
    if [ "$status" = 0 ] && [ ! -s err ] && grep -q '^Examples:$' out; then echo "ground: $1: ok"; else bad "$1"; fi
}

# ==== ground judge ====
run judge "$G" "$ARM" "$(printf %s "$PAD" | tr -d ' ' | tr A-F a-f)"
ended "G, ARM and PAD" 0 "$G_ok$ARM_ok$PAD_ok" ''
longest=$(printf '%0510d' 0)
run judge "18 01 C0 00 01 02 80 5A 00 00 $longest" "18 01 C0 00 01 81 FF A6 00 00 $longest $(printf '%0254d' 0)"
zeros=$(printf '%0510d' 0 | sed 's/../ 00/g')
ended "255 arguments" 0 "0 accepted: command 0, arguments$zeros, no pads
0 accepted: command 0, arguments$zeros, 127 pads
" ''
run judge '18 01 C0 00 00' "${G% 14}" "38${G#18}" "08${G#18}" "10${G#18}" "${G%14}15" '18 01 C0 00 00 05 03 D0 00 0A 05 00' \
    "18 01 C0 00 01 03 80 5B 00 00 00 $longest"
ended "each refusal" 1 '22 packet below 6 bytes: 5 bytes
23 packet size not 7 + length field: 9 bytes, length field 3 (bytes 4 and 5)
24 version not 0: version 1 (byte 0 is 38)
25 type not telecommand: type 0 (byte 0 is 08)
26 no secondary header: flag 0 (byte 0 is 10)
27 XOR not zero: all 10 bytes together give 01
28 data length - pads below 4: data length 6 (bytes 4 and 5), 3 pads (byte 6)
29 more than 255 arguments: data length 260 (bytes 4 and 5), no pads (byte 6)
' ''
run judge ''
ended "an argument with no bytes" 1 '22 packet below 6 bytes: no bytes
' ''
run judge "$G" '18 0G' "$ARM" ' 18 1 8' "${G}0"
ended "arguments that are no hex" 2 "$G_ok$ARM_ok" "ground judge: argument 2, column 5: 'G' is no hex digit: $hex
ground judge: argument 4, column 5: \"1\" has an odd number of digits: $hex
ground judge: argument 5, column 28: \"140\" has an odd number of digits: $hex
"
printf '# packets\n%s # G\n\n  \t\n%s\r\n\t%s' "$G" "$(printf %s "$ARM" | tr ' ' '\t')" "$PAD" >packets
run judge <packets
ended "lines, comments, tabs, CRLF, no end of the last line" 0 "$G_ok$ARM_ok$PAD_ok" ''
printf '\357\273\277%s\n18 01 C0 00\n%s\n' "$G" "$PAD" >packets
run judge <packets
ended "a line that is refused" 1 "${G_ok}22 packet below 6 bytes: 4 bytes
$PAD_ok" ''
printf '%s\n18 x\n1\n\n18\240\n18 01 C0 # 18 x\n%s,\n%s\n' "$G" "$G" "$PAD" >packets
run judge <packets
ended "lines that are no hex" 2 "${G_ok}22 packet below 6 bytes: 3 bytes
$PAD_ok" "ground judge: line 2, column 4: 'x' is no hex digit: $hex
ground judge: line 3, column 1: \"1\" has an odd number of digits: $hex
ground judge: line 5, column 3: '�' is no hex digit: $hex
ground judge: line 7, column 30: ',' is no hex digit: $hex
"
{ echo "$G"; head -c 1048577 /dev/zero | tr '\0' 0; echo; echo "$PAD"; } >packets
run judge <packets
ended "a line that is too long" 2 "$G_ok$PAD_ok" 'ground judge: line 2: more than 1 MiB
'
printf '\377\3761\0008\000\n\000' >packets
run judge <packets
ended "UTF-16" 2 '' 'ground judge: standard input is in UTF-16: expected UTF-8
'
run judge </dev/null
ended "no packet" 0 '' 'ground judge: no packet on standard input
'
run judge <.
ended "a folder" 2 '' 'ground judge: standard input: Is a directory (os error 21)
'
"$ground" build --csv "$root/examples/ground/session.csv" 2>/dev/null | cut -sd' ' -f2- >packets
run judge <packets
ended "what was built" 0 "$G_ok$ARM_ok$G_ok$PAD_ok" ''
misused "judge, an unknown option" judge --csv packets
helped 'judge --help'

# ---- output that fails, or that nobody reads ----
status=0
"$ground" judge "$G" >/dev/full 2>err || status=$?
: >out
ended "judge on a full disk" 2 '' 'ground judge: standard output: No space left on device (os error 28)
'
status=0
yes "$G" | "$ground" judge >/dev/full 2>err || status=$?
ended "judge, no end of input, on a full disk" 2 '' 'ground judge: standard output: No space left on device (os error 28)
'
status=0
"$ground" judge "$G" x >out 2>/dev/full || status=$?
: >err
ended "judge, standard error on a full disk" 2 "$G_ok" ''
# `yes` never ends by itself, so that this ends only where the program stops once its reader has gone.
yes "$G" | "$ground" judge 2>err | head -1 >out
status=${PIPESTATUS[1]}
ended "judge, no end of input, into head" 0 "$G_ok" ''
# Each answer is there before the next packet is sent.
mkfifo asked answers
"$ground" judge <asked >answers 2>err &
exec 3>asked 4<answers
answered=
for packet in "$G" "$PAD" "$G"; do
    echo "$packet" >&3
    IFS= read -r -t 300 line <&4 || bad "no answer before more is sent"
    answered="$answered$line
"
done
exec 3>&-
status=0
wait $! || status=$?
exec 4<&-
printf '%s' "$answered" >out
ended "judge, one packet after the other" 0 "$G_ok$PAD_ok$G_ok" ''
awk -v g="$G" -v pad="$PAD" 'BEGIN { for (k = 1; k <= 50000; k++) print k % 100 ? (k % 2 ? g : pad) : (k % 1000 ? "18" : "1") }' >long
run judge <long
if [ "$status $(wc -l <out) $(wc -l <err) $(grep -c '^22 ' out) $(grep -c '^0 accepted: ' out)" = "2 49950 50 450 49500" ] &&
    [ "$(tail -1 err)" = "ground judge: line 50000, column 1: \"1\" has an odd number of digits: $hex" ]; then
    echo "ground: 50,000 lines: ok"
else
    bad "50,000 lines: not as expected"
fi

# ==== ground config ====
C="$root/crates/step/data/path.cfg"
C_text='basics ground=1 fault=2 own=100
route 10 to 1
route 20 to 2
protect 20
fault 7 send 10 enabled latching args AA
'
# image NAME HEX: a file with these bytes
image() { printf '%s\n' "$2" | "$root/bin/hex" >"$1"; }
# alike NAME FILE: the file is configuration C
alike() { cmp -s "$2" "$C" || bad "$1: $2 is not configuration C"; }

# ---- there and back ----
run config show "$C"
ended "configuration C" 0 "$C_text" ''
run config show - <"$C"
ended "configuration C from standard input" 0 "$C_text" ''
run config make -o c.cfg "$root/examples/ground/c.txt"
ended "the example" 0 '' ''
alike "the example" c.cfg
printf '%s' "$C_text" >c.txt
sed 's/ *#.*//' "$root/examples/ground/c.txt" | grep . | cmp -s - c.txt || bad "the example is not the text of configuration C"
status=0
"$ground" config make <c.txt >c.cfg 2>err || status=$?
: >out
ended "text on standard input, the image on standard output" 0 '' ''
alike "the image on standard output" c.cfg
status=0
"$ground" config make --output - - <c.txt >c.cfg 2>err || status=$?
ended "the same by their names" 0 '' ''
alike "the same by their names" c.cfg
printf '\357\273\277# C\r\n\r\nbasics\tground=0x0001  fault=02 own=0X64 # own\r\n  route 0xa to 01#one\r\nroute 20 to 0x2\r\nprotect 20\r\nfault 7 send 10 enabled latching args aA' >odd.txt
run config make -o c.cfg odd.txt
ended "a byte order mark, CRLF, hex, comments, tabs" 0 '' ''
alike "a byte order mark, CRLF, hex, comments, tabs" c.cfg
# Every field at its least and at its most.
printf 'basics ground=65535 fault=0 own=65528\nroute 0 to 31\nroute 65527 to 1\nprotect 0\nprotect 65535\nfault 0 send 0 disabled\nfault 1 send 65527 enabled\nfault 2 send 0 disabled latching\nfault 65535 send 0 disabled args 00 01 02 03 04 05 06 07 08 09 0A 0B 0C 0D 0E FF\n' >most.txt
run config make -o most.cfg most.txt
ended "every field at its most" 0 '' ''
run config show most.cfg
ended "every field at its most, shown" 0 "$(cat most.txt)
" ''
{
    echo 'basics ground=1 fault=2 own=100'
    for k in $(seq 200 327); do echo "route $k to 1"; done
    for k in $(seq 200 231); do echo "protect $k"; done
    for k in $(seq 0 31); do echo "fault $k send 200 enabled"; done
} >full.txt
run config make -o full.cfg full.txt
ended "full tables" 0 '' ''
run config show full.cfg
ended "full tables, shown" 0 "$(cat full.txt)
" ''

# ---- an image that is refused ----
# refused NAME HEX SAID..: nothing is printed, the exit status is 1, and this is said
refused() {
    image bad.cfg "$2"
    name=$1
    shift 2
    run config show bad.cfg
    ended "$name" 1 '' "$(printf 'ground config show: %s\n' "$@")
"
}
basics='06 00 01 00 01 00 02 00 64 00'
route='03 00 02 00 14 00 02'
at='record at byte'
length='3 body length wrong for the kind, or n above 16'
order='4 first record not kind 1, a second kind 1, a kind that falls, an id not above the one before'
rule='7 any other rule of the image broken'
refused "a header that is cut" "$basics 03 00 02" "$at 10: 1 header or body passes the end of the image: 3 bytes left: a header has 4" "$at 10: 03 00 02"
refused "a body that is cut" "$basics 03 00 02 00 14" "$at 10: 1 header or body passes the end of the image: 1 byte left: the body has 3" "$at 10: 03 00 02 00 14"
refused "another kind" "$basics 01 00 09 00 FF" "$at 10: 2 kind not 1 to 4: kind 9: kinds are 1 to 4" "$at 10: 01 00 09 00 FF"
refused "a wrong length" "$basics 05 00 02 00 14 00 02 00 00" "$at 10: $length: body of 5 bytes: a route has 3" "$at 10: 05 00 02 00 14 00 02 00 00"
refused "17 arguments" "$basics $route 07 00 04 00 07 00 14 00 01 01 11" "$at 17: $length: 17 arguments: a fault row has at most 16" "$at 17: 07 00 04 00 07 00 14 00 01 01 11"
refused "an order" "$basics $route 03 00 02 00 0A 00 01" "$at 17: $order: route id 10 is not above 20, the one before" "$at 17: 03 00 02 00 0A 00 01"
refused "another record first" "$route" "$at 0: $order: a route comes first: expected a basics record" "$at 0: $route"
refused "a rule" "$basics 03 00 02 00 14 00 20" "$at 10: $rule: destination 32: destinations are 1 to 31" "$at 10: 03 00 02 00 14 00 20"
refused "a long record" "$basics 28 00 02 00 $(printf '%080d' 0 | sed 's/../ 00/g')" "$at 10: $length: body of 40 bytes: a route has 3" "$at 10: 28 00 02 00$(printf '%056d' 0 | sed 's/../ 00/g') .. (44 bytes)"
{ cat full.cfg; printf '\007\000\004\000\040\000\310\000\001\000\000'; } >bad.cfg
run config show bad.cfg
ended "a 33rd fault row" 1 '' "ground config show: $at 1450: 6 one row more than the limit: 32 fault ids stand before it, the most there may be
ground config show: $at 1450: 07 00 04 00 20 00 C8 00 01 00 00
"
run config show - </dev/null
ended "an empty image" 1 '' 'ground config show: byte 0: 5 empty image
'

# ---- a text whose image is refused: its line is told, and nothing is written ----
cp c.cfg kept.cfg
# made_refused NAME TEXT SAID: the exit status is 1, this is said, and the file that was there stays
made_refused() {
    # shellcheck disable=SC2059
    printf "$2" >bad.txt
    run config make -o kept.cfg bad.txt
    ended "$1" 1 '' "ground config make: $3
"
    alike "$1" kept.cfg
    status=0
    "$ground" config make -o new.cfg bad.txt 2>err || status=$?
    if [ "$status" != 1 ] || [ -e new.cfg ]; then bad "$1: an image was written"; fi
    "$ground" config make bad.txt >out 2>err || true
    [ ! -s out ] || bad "$1: bytes were printed"
}
first='basics ground=1 fault=2 own=100\n'
made_refused "no record first" 'route 10 to 1\n' "line 1: $order: a route comes first: expected a basics record"
made_refused "two basics" "$first\\n$first" "line 3: $order: a basics record is there already"
made_refused "a kind that falls" "${first}protect 101\nroute 10 to 1\n" "line 3: $order: a route behind a protected id: kinds never fall"
made_refused "an id that does not rise" "# C\n${first}route 20 to 2\n\nroute 10 to 1\n" "line 5: $order: route id 10 is not above 20, the one before"
made_refused "a fault id twice" "${first}route 20 to 2\nfault 7 send 20 enabled\nfault 7 send 20 disabled\n" "line 4: $order: fault id 7 is not above 7, the one before"
made_refused "17 arguments in the text" "${first}route 20 to 2\nfault 7 send 20 enabled args $(printf '%034d' 0)\n" "line 3: $length: 17 arguments: a fault row has at most 16"
made_refused "equal sources" 'basics ground=1 fault=1 own=100\n' "line 1: $rule: ground and fault are both 1"
made_refused "own ids past the end" 'basics ground=1 fault=2 own=65529\n' "line 1: $rule: own 65529: own is at most 65528"
made_refused "destination 0" "${first}route 20 to 0\n" "line 2: $rule: destination 0: destinations are 1 to 31"
made_refused "an own id routed" "${first}route 107 to 1\n" "line 2: $rule: route id 107 is an own id: these are 100 to 107"
made_refused "the arm id protected" "${first}protect 100\n" "line 2: $rule: protected id 100 is the arm id"
made_refused "an unknown id protected" "${first}protect 108\n" "line 2: $rule: protected id 108 is neither routed nor own"
made_refused "a response that is not routed" "${first}fault 7 send 20 enabled\n" "line 2: $rule: command 20 is not routed"
made_refused "no records" '# nothing\n' '5 empty image: no line says a record'
sed '/^protect/d; /^fault/d' full.txt >in.txt
made_refused "a 129th route" "$(sed 's/$/\\n/' in.txt | tr -d '\n')route 328 to 1\n" "line 130: 6 one row more than the limit: 128 route ids stand before it, the most there may be"

# ---- a text that is not as expected: all of it is told, and nothing is written ----
records='expected basics, route, protect or fault'
of_basics='expected basics ground=NUMBER fault=NUMBER own=NUMBER'
of_route='expected route COMMAND to DESTINATION'
of_protect='expected protect COMMAND'
of_fault='expected fault FAULT send COMMAND disabled|enabled [latching] [args HEX..]'
cat >bad.txt <<'TEXT'
basics ground=x fault= own=65536
basic ground=1 fault=2 own=100
basics ground=1 own=100 fault=2
basics ground=1 fault=2
route 10 1
route -1 to 256
route 10 to 1 2      # a word too much
route
protect 1.0 20
	protect #20
fault 7 send 10
fault 7 sends 10 enabled
fault x send 0x10000 on
fault 7 send 10 enabled latch args 00
fault 7 send 10 enabled latching args
fault 7 send 10 disabled args 0 0G 01,02
TEXT
{ printf 'fault 7 send 10 enabled args'; printf '%0512d' 0 | sed 's/../ 00/g'; printf '\nroute \2000 to 1\n'; } >>bad.txt
run config make -o kept.cfg bad.txt
said="ground config make: line"
ended "each mistake of a text" 2 '' "$said 1, column 15: \"x\" is no number: $a_number
$said 1, column 23: empty: $a_number
$said 1, column 28: \"65536\" is too large: $a_number
$said 2, column 1: \"basic\" is no record: $records
$said 3, column 17: \"own=100\" does not fit: $of_basics
$said 4, column 24: the line ends here: $of_basics
$said 5, column 10: \"1\" does not fit: $of_route
$said 6, column 7: \"-1\" is no number: $a_number
$said 6, column 13: \"256\" is too large: $a_byte
$said 7, column 15: \"2\" does not fit: $of_route
$said 8, column 6: the line ends here: $of_route
$said 9, column 9: \"1.0\" is no number: $a_number
$said 9, column 13: \"20\" does not fit: $of_protect
$said 10, column 9: the line ends here: $of_protect
$said 11, column 16: the line ends here: $of_fault
$said 12, column 9: \"sends\" does not fit: $of_fault
$said 13, column 7: \"x\" is no number: $a_number
$said 13, column 14: \"0x10000\" is too large: $a_number
$said 13, column 22: \"on\" does not fit: $of_fault
$said 14, column 25: \"latch\" does not fit: $of_fault
$said 15, column 38: the line ends here: expected bytes behind args
$said 16, column 31: \"0\" has an odd number of digits: $hex
$said 16, column 34: 'G' is no hex digit: $hex
$said 16, column 38: ',' is no hex digit: $hex
$said 17, column 25: 256 bytes: expected at most 255 behind args
$said 18, column 7: \"�0\" is no number: $a_number
"
alike "each mistake of a text" kept.cfg
run config make -o new.cfg bad.txt
[ ! -e new.cfg ] || bad "each mistake of a text: an image was written"
run config make bad.txt
[ ! -s out ] || bad "each mistake of a text: bytes were printed"
# A good line does not make up for a bad one.
printf '%sroute x to 1\n' "$C_text" >bad.txt
run config make bad.txt
ended "one bad line" 2 '' "$said 6, column 7: \"x\" is no number: $a_number
"
printf '\377\376b\000' >bad.txt
run config make bad.txt
ended "a text in UTF-16" 2 '' 'ground config make: the text is in UTF-16: expected UTF-8
'

# ---- files that can't be read or written ----
run config show none.cfg
ended "no such image" 2 '' 'ground config show: none.cfg: No such file or directory (os error 2)
'
run config show .
ended "a folder for an image" 2 '' 'ground config show: .: Is a directory (os error 21)
'
run config make -o new.cfg none.txt
ended "no such text" 2 '' 'ground config make: none.txt: No such file or directory (os error 2)
'
run config make -o new.cfg .
ended "a folder for a text" 2 '' 'ground config make: .: Is a directory (os error 21)
'
run config make -o none/new.cfg c.txt
ended "no folder for the image" 2 '' 'ground config make: none/new.cfg: No such file or directory (os error 2)
'
mkdir folder
run config make -o folder c.txt
ended "a folder in the image's place" 2 '' 'ground config make: folder: Is a directory (os error 21)
'
run config make -o ./c.txt c.txt
ended "the image in the text's place" 2 '' "ground config make: ./c.txt: the image would take the text's place
"
[ "$(cat c.txt)
" = "$C_text" ] || bad "the image in the text's place: the text is gone"
head -c 1048577 /dev/zero >large
run config show large
ended "an image of more than 1 MiB says what is wrong" 1 '' 'ground config show: record at byte 0: 2 kind not 1 to 4: kind 0: kinds are 1 to 4
ground config show: record at byte 0: 00 00 00 00
'
# sparse, so that it takes no room
truncate -s 268435457 larger
run config show larger
ended "an image that is too large" 2 '' 'ground config show: larger: more than 256 MiB
'
rm larger
run config make - <large
ended "a text that is too large" 2 '' 'ground config make: standard input: more than 1 MiB
'
: >out
status=0
"$ground" config show "$C" >/dev/full 2>err || status=$?
ended "show on a full disk" 2 '' 'ground config show: standard output: No space left on device (os error 28)
'
status=0
"$ground" config make c.txt >/dev/full 2>err || status=$?
ended "make on a full disk" 2 '' 'ground config make: standard output: No space left on device (os error 28)
'
run config make -o /dev/full c.txt
ended "an image on a full disk" 2 '' 'ground config make: /dev/full: No space left on device (os error 28)
'
# A limit on the size of a file stands for a disk that fills up while the image is written. Full tables take more than 1 KiB.
status=0
(trap '' XFSZ && ulimit -f 1 && exec "$ground" config make -o new.cfg full.txt) >out 2>err || status=$?
ended "no room for the image" 2 '' 'ground config make: new.cfg: File too large (os error 27)
'
[ -z "$(find . -name '*.part' -o -name new.cfg)" ] || bad "files were left behind"
# The pipe is held open meanwhile, so that its reader comes to an end whatever the program does with it.
mkfifo pipe
exec 3<>pipe
cat pipe >c.cfg 3>&- &
run config make -o pipe c.txt
exec 3>&-
wait $!
ended "an image into a pipe" 0 '' ''
alike "an image into a pipe" c.cfg
[ -p pipe ] || bad "an image into a pipe: the pipe is gone"
# Nobody reads a pipe whose reader has ended, and that is no failure.
: >out
"$ground" config show full.cfg 2>err | :
status=${PIPESTATUS[0]}
ended "show, and nobody reads" 0 '' ''
"$ground" config make c.txt 2>err | :
status=${PIPESTATUS[0]}
ended "make, and nobody reads" 0 '' ''
"$ground" config show full.cfg 2>err | head -1 >out
status=${PIPESTATUS[0]}
ended "show into head" 0 'basics ground=1 fault=2 own=100
' ''

# ---- no bytes for a terminal ----
# on_terminal ARGUMENT..: runs the program with a terminal for standard output and standard error; `out` has what it showed
on_terminal() {
    status=0
    python3 -c 'import os, pty, sys; sys.exit(os.waitstatus_to_exitcode(pty.spawn(sys.argv[1:])))' "$ground" "$@" </dev/null >shown || status=$?
    tr -d '\r' <shown >out
    : >err
}
on_terminal config make c.txt
ended "make on a terminal" 2 'ground config make: standard output is a terminal: expected -o FILE, another file or a pipe
' ''
on_terminal config make -o c.cfg c.txt
ended "make on a terminal, into a file" 0 '' ''
alike "make on a terminal, into a file" c.cfg

misused "config, no subcommand" config
misused "config, an unknown subcommand" config made
misused "show, no image" config show
misused "show, two images" config show c.cfg c.cfg
misused "make, two texts" config make -o new.cfg c.txt c.txt
misused "make, no file behind -o" config make c.txt -o
helped 'config --help'
helped 'config show --help'
helped 'config make --help'
exit $failed
