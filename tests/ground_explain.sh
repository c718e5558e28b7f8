# A session in words, as its readers run it: what `ground explain` prints, what it says and how it ends.
set -eu
# shellcheck source=tests/ground_runs
. "$(dirname "$0")/ground_runs"

# explain ARGUMENT..: runs the subcommand
explain() { run explain "$@"; }

# Configuration C and the session of document 01.
cp "$root/crates/step/data/path.cfg" c.cfg
cp "$root/crates/step/stdin" session.rec

# ---- the session of document 01 ----
lines='event 1, time 0: packet, command 20, no arguments | 30 protected and unarmed: unarmed since loading | unarmed | A1 R0 D0 P1 U0 I0 F0
event 2, time 0: packet, command 100 (arm, timeout 2) | 11 arm taken: for 2 ticks | now armed, 2 ticks left | A2 R0 D0 P1 U0 I0 F0
event 3, time 0: tick | 14 tick: armed by event 2 | armed, 1 tick left | A2 R0 D0 P1 U0 I0 F0
event 4, time 1: packet, command 20, no arguments | 10 command dispatched: protected, armed by event 2, 1 tick left | to destination 2: 00 01 00 14 00 | now unarmed | A3 R0 D1 P1 U0 I0 F0
event 5, time 1: packet, command 100 (arm, timeout 2) | 11 arm taken: for 2 ticks | now armed, 2 ticks left | A4 R0 D1 P1 U0 I0 F0
event 6, time 1: tick | 14 tick: armed by event 5 | armed, 1 tick left | A4 R0 D1 P1 U0 I0 F0
event 7, time 2: tick | 15 tick that ended the armed state: armed by event 5, and its timeout is over | now unarmed | A4 R0 D1 P1 U0 I0 F0
event 8, time 3: packet, command 20, no arguments | 30 protected and unarmed: unarmed since the tick of event 7 at time 2 | unarmed | A5 R0 D1 P2 U0 I0 F0
event 9, time 3: packet, command 10, 1 argument 05, 1 pad | 10 command dispatched: not protected | to destination 1: 00 01 00 0A 01 05 | unarmed | A6 R0 D2 P2 U0 I0 F0
event 10, time 3: fault 7 | 10 command dispatched: fault row 7 was enabled and is latched now | to destination 1: 00 02 00 0A 01 AA | unarmed | A6 R0 D3 P2 U0 I0 F1
event 11, time 3: fault 7 | 13 fault known, its response disabled or latched: fault row 7 is latched since the fault of event 10 at time 3 | unarmed | A6 R0 D3 P2 U0 I0 F2
event 12, time 3: fault 8 | 34 fault id not in the table: there is no fault row 8 | unarmed | A6 R0 D3 P2 U0 I0 F3
'
summary='12 events: 6 packets (6 accepted, 0 rejected), 3 ticks, 3 faults; 3 commands dispatched
at the end: unarmed | A6 R0 D3 P2 U0 I0 F3 | fault rows latched: 7
'
stopped=${summary/at the end:/where it stopped:}
header='event,time,kind,bytes,answer,words,id,destination,written,command,armed,ticks,A,R,D,P,U,I,F,why
'
rows='1,0,packet,18 01 C0 00 00 03 00 CE 00 14,30,protected and unarmed,20,0,0,,0,0,1,0,0,1,0,0,0,unarmed since loading
2,0,packet,18 01 C0 00 00 04 00 BB 00 64 02,11,arm taken,100,0,0,,1,2,2,0,0,1,0,0,0,for 2 ticks
3,0,tick,,14,tick,0,0,0,,1,1,2,0,0,1,0,0,0,armed by event 2
4,1,packet,18 01 C0 00 00 03 00 CE 00 14,10,command dispatched,20,2,5,00 01 00 14 00,0,0,3,0,1,1,0,0,0,"protected, armed by event 2, 1 tick left"
5,1,packet,18 01 C0 00 00 04 00 BB 00 64 02,11,arm taken,100,0,0,,1,2,4,0,1,1,0,0,0,for 2 ticks
6,1,tick,,14,tick,0,0,0,,1,1,4,0,1,1,0,0,0,armed by event 5
7,2,tick,,15,tick that ended the armed state,0,0,0,,0,0,4,0,1,1,0,0,0,"armed by event 5, and its timeout is over"
8,3,packet,18 01 C0 00 00 03 00 CE 00 14,30,protected and unarmed,20,0,0,,0,0,5,0,1,2,0,0,0,unarmed since the tick of event 7 at time 2
9,3,packet,18 01 C0 00 00 05 01 D2 00 0A 05 00,10,command dispatched,10,1,6,00 01 00 0A 01 05,0,0,6,0,2,2,0,0,0,not protected
10,3,fault,07 00,10,command dispatched,10,1,6,00 02 00 0A 01 AA,0,0,6,0,3,2,0,0,1,fault row 7 was enabled and is latched now
11,3,fault,07 00,13,"fault known, its response disabled or latched",0,0,0,,0,0,6,0,3,2,0,0,2,fault row 7 is latched since the fault of event 10 at time 3
12,3,fault,08 00,34,fault id not in the table,0,0,0,,0,0,6,0,3,2,0,0,3,there is no fault row 8
'
explain c.cfg session.rec
ended "the session of document 01" 0 "$lines$summary" ''
explain --csv c.cfg session.rec
ended "the same for a spreadsheet" 0 "$header$rows" ''
explain c.cfg - <session.rec
ended "from standard input" 0 "$lines$summary" ''
explain c.cfg - --csv <session.rec
ended "from standard input, for a spreadsheet" 0 "$header$rows" ''
# The numbers of the lines are those that the step program is expected to print.
explain --csv c.cfg session.rec
tail -n +2 out | sed 's/"[^"]*"//g' | awk -F, 'BEGIN { print "0 0" } { print $5, $7, $8, $9 }' >numbers
if cmp -s numbers "$root/crates/step/stdout"; then echo "ground explain: the numbers of document 01: ok"; else bad "the numbers of document 01"; fi

# ---- rejected packets ----
printf '\012\000\020\000\030\001\300\000\000\003\000\316\000\025' >bad_xor.rec
printf '\011\000\020\000\030\001\300\000\000\003\000\316\000' >short.rec
cat bad_xor.rec short.rec >rejected.rec
explain c.cfg rejected.rec
ended "rejected packets" 0 'event 1, time 0: packet of 10 bytes, 18 01 C0 00 00 03 00 CE 00 15 | 27 XOR not zero: the XOR of all bytes is 01; byte 7 is CE, and CF would make it 00 | unarmed | A0 R1 D0 P0 U0 I0 F0
event 2, time 0: packet of 9 bytes, 18 01 C0 00 00 03 00 CE 00 | 23 packet size not 7 + length field: bytes 4 and 5 say 10 bytes, there are 9 | unarmed | A0 R2 D0 P0 U0 I0 F0
2 events: 2 packets (0 accepted, 2 rejected), 0 ticks, 0 faults; 0 commands dispatched
at the end: unarmed | A0 R2 D0 P0 U0 I0 F0 | fault rows enabled: 7
' ''
none='0 events: 0 packets (0 accepted, 0 rejected), 0 ticks, 0 faults; 0 commands dispatched
at the end: unarmed | A0 R0 D0 P0 U0 I0 F0 | fault rows enabled: 7
'
explain c.cfg /dev/null
ended "no events" 0 "$none" ''
explain --csv c.cfg /dev/null
ended "no events for a spreadsheet" 0 "$header" ''

# ---- bad records: what was told before them stands ----
# bad_end NAME NUMBER WORDS SHOWN: the session and `tail.rec` behind it
bad_end() {
    cat session.rec tail.rec >bad.rec
    explain c.cfg bad.rec
    ended "$1" 1 "$lines$stopped" "ground explain: bad.rec: $2 $3, at byte 118: $4
"
    explain --csv c.cfg - <bad.rec
    ended "$1, for a spreadsheet" 1 "$header$rows" "ground explain: standard input: $2 $3, at byte 118: $4
"
}
printf '\013\000\020\000\030\001\300' >tail.rec
bad_end "a record that is cut" 60 "a record is cut" "0B 00 10 00 18 01 C0"
printf '\000' >tail.rec
bad_end "a header that is cut" 60 "a record is cut" "00"
printf '\000\000\023\000\000\000\021\000' >tail.rec
bad_end "a record of another kind" 61 "a record is of another kind than 16, 17 and 18" "00 00 13 00"
printf '\001\000\021\000\005\000\000\021\000' >tail.rec
bad_end "a record of wrong length" 62 "a record has a wrong length for its kind" "01 00 11 00 05"
printf '\021\000\022\000abcdefghijklmnopq' >tail.rec
bad_end "a long bad record" 62 "a record has a wrong length for its kind" "11 00 12 00 61 62 63 64 65 66 67 68 69 6A 6B 6C .."

# ---- images that are refused: nothing is told ----
: >empty.cfg
explain empty.cfg session.rec
ended "an empty image" 1 '' 'ground explain: empty.cfg: 5 empty image, at byte 0
'
head -c 41 c.cfg >cut.cfg
explain --csv cut.cfg session.rec
ended "an image that is cut" 1 '' 'ground explain: cut.cfg: 1 header or body passes the end of the image, at byte 30
'
{ cat c.cfg; head -c 100000 /dev/zero; } >long.cfg
explain long.cfg session.rec
ended "an image that is too long" 1 '' 'ground explain: long.cfg: 2 kind not 1 to 4, at byte 42
'

# ---- files and options ----
explain none.cfg session.rec
ended "no such image" 2 '' 'ground explain: none.cfg: No such file or directory (os error 2)
'
explain c.cfg none.rec
ended "no such recording" 2 '' 'ground explain: none.rec: No such file or directory (os error 2)
'
explain . session.rec
ended "a folder for an image" 2 '' 'ground explain: .: Is a directory (os error 21)
'
explain --csv c.cfg .
ended "a folder for a recording" 2 '' 'ground explain: .: Is a directory (os error 21)
'
explain - session.rec <c.cfg
ended "the image from standard input" 2 '' 'ground explain: IMAGE: expected a file: standard input is for the recording
'
misused "no files" explain
misused "no recording" explain c.cfg
misused "a file too many" explain c.cfg session.rec session.rec
misused "an unknown option" explain --text c.cfg session.rec
explain --help
if [ "$status" = 0 ] && [ ! -s err ] && grep -q '^Examples:$' out && grep -qF "$(printf %s "$lines" | sed -n 3p)" out; then
    echo "ground explain: --help: ok"
else
    bad "--help"
fi

# ---- output that fails, or that nobody reads ----
for form in '' --csv; do
    status=0
    # shellcheck disable=SC2086
    "$ground" explain $form c.cfg session.rec >/dev/full 2>err || status=$?
    : >out
    ended "a full disk, ${form:-lines}" 2 '' 'ground explain: standard output: No space left on device (os error 28)
'
done
status=0
"$ground" explain c.cfg bad.rec >out 2>/dev/full || status=$?
: >err
ended "standard error on a full disk" 1 "$lines$stopped" ''
# The recording never ends; the program does, once its reader has gone.
cp session.rec chunk
for _ in 1 2 3 4 5 6 7 8; do
    cat chunk chunk >twice
    mv twice chunk
done
endless() { while cat chunk 2>/dev/null; do :; done; }
for form in '' --csv; do
    # shellcheck disable=SC2086
    endless | timeout 120 "$ground" explain $form c.cfg - 2>err | head -3 >out
    status=${PIPESTATUS[1]}
    case $form in
    --csv) expected=$(printf %s "$header$rows" | head -3) ;;
    *) expected=$(printf %s "$lines" | head -3) ;;
    esac
    ended "an endless recording into head, ${form:-lines}" 0 "$expected
" ''
done

# ---- pieces ----
# 256 times the session, in 30,208 bytes: times and numbers go on, and fault row 7 stays latched.
explain c.cfg chunk
if [ "$status $(wc -l <out)" = "0 3074" ] && [ ! -s err ] &&
    [ "$(sed -n 3070p out)" = "event 3070, time 768: fault 7 | 13 fault known, its response disabled or latched: fault row 7 is latched since the fault of event 10 at time 3 | unarmed | A1536 R0 D513 P512 U0 I0 F766" ] &&
    [ "$(tail -1 out)" = "at the end: unarmed | A1536 R0 D513 P512 U0 I0 F768 | fault rows latched: 7" ]; then
    echo "ground explain: 3,072 events: ok"
else
    bad "3,072 events: not as expected"
fi
mv out whole
# Cut anywhere, by a writer who waits between the pieces.
{ head -c 1 chunk; sleep 0.2; tail -c +2 chunk | head -c 5; sleep 0.2; tail -c +7 chunk; } | "$ground" explain c.cfg - >out
if cmp -s out whole; then echo "ground explain: a recording that comes in pieces: ok"; else bad "a recording that comes in pieces"; fi
# What has come is told before more is waited for.
mkfifo records told
"$ground" explain c.cfg - <records >told &
exec 4>records 5<told
head -c 14 session.rec >&4
read -r -t 60 first <&5 || first='nothing'
tail -c +15 session.rec | head -c 15 >&4
read -r -t 60 second <&5 || second='nothing'
exec 4>&-
cat <&5 >out
exec 5<&-
status=0
wait $! || status=$?
if [ "$first
$second" = "$(printf %s "$lines" | head -2)" ] && [ "$status $(wc -l <out)" = "0 2" ]; then
    echo "ground explain: events are told as they come: ok"
else
    bad "events are not told as they come: $first"
fi

# ---- progress ----
# terminal OUT: a run that takes longer than a second, with a terminal for standard error; prints what the terminal was sent
terminal() {
    python3 - "$ground" "$1" <<'PYTHON'
import os, pty, subprocess, sys, time
here, there = pty.openpty()
with open(sys.argv[2], "wb") as out:
    run = subprocess.Popen([sys.argv[1], "explain", "c.cfg", "-"], stdin=subprocess.PIPE, stdout=out, stderr=there)
os.close(there)
for _ in range(3):
    run.stdin.write(bytes([0, 0, 17, 0]))
    run.stdin.flush()
    time.sleep(1.5)
run.stdin.close()
run.wait()
sent = b""
try:
    while piece := os.read(here, 1000):
        sent += piece
except OSError:
    pass
print(repr(sent.decode()), run.returncode)
PYTHON
}
shown=$(terminal out)
case $shown in
*"\\rground explain: "*" bytes read"*"\\r'"' 0') echo "ground explain: progress on a terminal: ok" ;;
*) bad "progress on a terminal: $shown" ;;
esac
[ "$(wc -l <out)" = 5 ] || bad "progress on a terminal: the lines are not as expected"
exit $failed
