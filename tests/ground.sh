# The program for people on the ground, as its users run it: what it prints, what it says, what it writes and how it ends.
set -eu
# shellcheck source=tests/ground_runs
. "$(dirname "$0")/ground_runs"

# sheet LINE..: a sheet with these lines on standard output
sheet() { printf '%s\n' "$@"; }

G='0 18 01 C0 00 00 03 00 CE 00 14
'
ARM='0 18 01 C0 00 00 04 00 BB 00 64 02
'
PAD='0 18 01 C0 00 00 05 01 D2 00 0A 05 00
'
a_number='expected a number from 0 to 65,535, in decimal or in hex after 0x'
hex='expected two hex digits a byte, with or without spaces between bytes'
columns='expected apid, count, id, args and, where there are pads, pads, separated by commas or by semicolons'
header='apid,count,id,args,pads'

# ---- one packet ----
run build --apid 1 --count 0 --id 20
ended "G" 0 "$G" ''
run build --apid 0x1 --count 0x0 --id 0x64 --args 02 --pads 0
ended "ARM, its numbers in hex" 0 "$ARM" ''
run build --pads 1 --args ' 05 ' --id 10 --count 0 --apid 1
ended "PAD" 0 "$PAD" ''
run build --apid 2047 --count 16383 --id 65535 --args 'fFfe 0A'
ended "every field at its most" 0 '0 1F FF FF FF 00 06 00 ED FF FF FF FE 0A
' ''
run build --apid 2048 --count 16384 --id 1
ended "an APID too high" 1 '40
' 'ground build: 40 APID above 2,047
'
run build --apid 2047 --count 16384 --id 1 --pads 128
ended "a count too high" 1 '41
' 'ground build: 41 sequence count above 16,383
'
many=$(printf '%0512d' 0)
run build --apid 1 --count 0 --id 1 --args "$many" --pads 128
ended "256 arguments" 1 '42
' 'ground build: 42 more than 255 arguments
'
run build --apid 1 --count 0 --id 1 --args "${many#00}" --pads 128
ended "128 pads" 1 '43
' 'ground build: 43 more than 127 pads
'
run build --apid 1 --count 0 --id 1 --args "${many#00}" --pads 127
if [ "$status" = 0 ] && [ "$(wc -w <out)" = 393 ]; then echo "ground: the longest packet: ok"; else bad "the longest packet"; fi
run build --apid -1 --count 65536 --id 0x --args 5 --pads 1.0
ended "options that are no numbers" 2 '' "ground build: --apid: \"-1\" is no number: $a_number
ground build: --count: \"65536\" is too large: $a_number
ground build: --id: \"0x\" is no number: $a_number
ground build: --args: \"5\" has an odd number of digits: $hex
ground build: --pads: \"1.0\" is no number: $a_number
"

misused "no subcommand"
misused "an unknown subcommand" built
misused "no options" build
misused "an option left out" build --apid 1 --count 0
misused "an unknown option" build --apid 1 --count 0 --id 20 --pad 1
misused "an option twice" build --apid 1 --apid 1 --count 0 --id 20
misused "a sheet and an option" build --csv "$root/examples/ground/session.csv" --pads 1
for words in '--help' 'build --help'; do
    # shellcheck disable=SC2086
    run $words
    if [ "$status" = 0 ] && [ ! -s err ] && grep -q '^Examples:$' out; then echo "ground: $words: ok"; else bad "$words"; fi
done

# ---- a sheet ----
run build --csv "$root/examples/ground/session.csv" --records session.rec
ended "the example" 0 "$G$ARM$G$PAD" ''
"$root/bin/step" "$root/crates/step/data/path.cfg" <session.rec >steps
same "the example's steps" steps '0 0
30 20 0 0
11 100 0 0
10 20 2 5
10 10 1 6
'
printf '\357\273\277Pads, ARGS ,"id",count,apid\r\n\r\n 0,, 0x14 ,0,0x0001\r\n,"02",100,0,1\r\n1,05,0x0a,000,1' >odd.csv
run build --csv odd.csv
ended "a byte order mark, CRLF, another order of columns" 0 "$G$ARM$PAD" ''
sheet 'apid;count;id;args' '1;0;100;02' >in.csv
run build --csv - <in.csv
ended "standard input, semicolons, no pads" 0 "$ARM" 'ground build: semicolons separate the cells, as in the header row
'
sheet "$header" '1,0,7,0a 0B0c  0D,' >in.csv
run build --csv - <in.csv
ended "spaces between bytes" 0 '0 18 01 C0 00 00 07 00 D9 00 07 0A 0B 0C 0D
' ''
sheet "$header" >in.csv
run build --csv - <in.csv
ended "no rows" 0 '' 'ground build: no row beneath the header row
'

sheet "$header" 1,0,20,, 2048,0,20,, '' 1,16384,20,, "1,0,20,$many," 1,0,20,,128 1,0,100,02, >refused.csv
run build --csv refused.csv --records refused.rec
ended "each refusal" 1 "${G}40
41
42
43
$ARM" 'ground build: row 3: 40 APID above 2,047
ground build: row 5: 41 sequence count above 16,383
ground build: row 6: 42 more than 255 arguments
ground build: row 7: 43 more than 127 pads
ground build: refused.rec: 2 packets were written, 4 rows were refused
'
"$root/bin/step" "$root/crates/step/data/path.cfg" <refused.rec >steps
same "the steps of what was not refused" steps '0 0
30 20 0 0
11 100 0 0
'
run build --apid 1 --count 0 --id 100 --args 02 --records arm.rec
ended "the record of one packet" 0 "$ARM" ''
run build --apid 1 --count 0 --id 100 --args 02 --pads 128 --records none.rec
ended "the record of none" 1 '43
' 'ground build: 43 more than 127 pads
ground build: none.rec: 0 packets were written, 1 packet was refused
'
if [ ! -f none.rec ] || [ -s none.rec ]; then bad "none.rec is not empty"; fi
printf '\013\000\020\000\030\001\300\000\000\004\000\273\000\144\002' | cmp -s - arm.rec || bad "arm.rec has other bytes"

# ---- a sheet that is not as expected: all of it is told, and nothing is written ----
cp arm.rec kept.rec
sheet "$header" 1,0,20,, x,,65536,0,-1 1,0,20,0G, 1,0,20,02 1,0,20,02,0,0 ' 1 , 0 ,1 2,"02
03",0x' >bad.csv
run build --csv bad.csv --records kept.rec
ended "bad cells" 2 '' "ground build: row 3, column apid: \"x\" is no number: $a_number
ground build: row 3, column count: empty: $a_number
ground build: row 3, column id: \"65536\" is too large: $a_number
ground build: row 3, column args: \"0\" has an odd number of digits: $hex
ground build: row 3, column pads: \"-1\" is no number: $a_number
ground build: row 4, column args: \"0G\" has 'G' in it: $hex
ground build: row 5: 4 cells: expected 5, as in the header row
ground build: row 6: 6 cells: expected 5, as in the header row
ground build: row 7, column id: \"1 2\" is no number: $a_number
ground build: row 7, column args: \"02\\n03\" has '\\n' in it: $hex
ground build: row 7, column pads: \"0x\" is no number: $a_number
"
cmp -s kept.rec arm.rec || bad "bad cells: the records that were there are gone"
run build --csv bad.csv --records new.rec
[ ! -e new.rec ] || bad "bad cells: records were written"
sheet apid,count,id,pad,apid 1,0,20,0,1 >in.csv
run build --csv - --records new.rec <in.csv
ended "bad columns" 2 '' "ground build: row 1: unknown column \"pad\": $columns
ground build: row 1: more than one column apid
ground build: row 1: no column args: $columns
"
run build --csv - </dev/null
ended "an empty sheet" 2 '' "ground build: no header row: $columns
"
printf '%s\n1,0,20,02,"1' "$header" >in.csv
run build --csv - <in.csv
ended "a sheet that is cut" 2 '' 'ground build: row 2: a quote is opened and never closed
'
run build --csv none.csv
ended "no such file" 2 '' 'ground build: none.csv: No such file or directory (os error 2)
'
run build --csv .
ended "a folder" 2 '' 'ground build: .: Is a directory (os error 21)
'
run build --csv refused.csv --records none/new.rec
ended "no folder for the records" 2 '' 'ground build: none/new.rec: No such file or directory (os error 2)
'
run build --csv refused.csv --records ./refused.csv
ended "the records in the sheet's place" 2 '' "ground build: refused.csv: the records would take the sheet's place
"
run build --csv refused.csv --records -
ended "the records on standard output" 2 '' 'ground build: --records: expected a file: standard output has the lines
'

# ---- output that fails, or that nobody reads ----
# A sheet of 100,000 rows; every hundredth is refused.
awk -v h="$header" 'BEGIN { print h; for (k = 0; k < 100000; k++) print (k % 100 ? 1 : 2048) "," k % 16384 ",20,02 " sprintf("%02X", k % 256) "," }' >long.csv
status=0
"$ground" build --csv refused.csv --records new.rec >/dev/full 2>err || status=$?
: >out
ended "a full disk" 2 '' 'ground build: standard output: No space left on device (os error 28)
'
status=0
"$ground" build --help >/dev/full 2>err || status=$?
ended "help on a full disk" 2 '' 'ground: standard output: No space left on device (os error 28)
'
status=0
"$ground" build --csv refused.csv >out 2>/dev/full || status=$?
: >err
ended "standard error on a full disk" 1 "$(cat out)
" ''
# A limit on the size of a file stands for a disk that fills up while the records are written.
status=0
(trap '' XFSZ && ulimit -f 1 && exec "$ground" build --csv long.csv --records new.rec) >out 2>err || status=$?
ended "no room for the records" 2 '' 'ground build: new.rec: File too large (os error 27)
'
# The pipe is held open meanwhile, so that its reader comes to an end whatever the program does with it.
mkfifo pipe
exec 3<>pipe
"$root/bin/step" "$root/crates/step/data/path.cfg" <pipe >steps 3>&- &
run build --csv "$root/examples/ground/session.csv" --records pipe
exec 3>&-
wait $!
ended "records into a pipe" 0 "$G$ARM$G$PAD" ''
if [ ! -p pipe ] || [ "$(wc -l <steps)" != 5 ]; then bad "records into a pipe: not as expected"; fi
[ -z "$(find . -name '*.part' -o -name new.rec)" ] || bad "files were left behind"
"$ground" build --csv long.csv --records long.rec 2>err | head -1 >out
status=${PIPESTATUS[0]}
[ "$(wc -l <err)" = 1001 ] || bad "100,000 rows into head: something else is said"
tail -1 err >said
mv said err
ended "100,000 rows into head" 1 '40
' 'ground build: long.rec: 99000 packets were written, 1000 rows were refused
'
[ "$(wc -c <long.rec)" = $((99000 * 16)) ] || bad "100,000 rows into head: the records have another size"
run build --csv long.csv
if [ "$status $(wc -l <out) $(wc -l <err) $(grep -c '^40$' out)" = "1 100000 1000 1000" ] &&
    [ "$(sed -n '65537p' out)" = "0 18 01 C0 00 00 05 00 CA 00 14 02 00" ]; then
    echo "ground: 100,000 rows: ok"
else
    bad "100,000 rows: not as expected"
fi

# ---- the lock file ----
# Debian's crates come with a lock file of this machine, so that cargo has not looked at the project's. Both have to say the
# same of the project's own crates.
own() { awk 'BEGIN { RS = "" } /name = / && !/source = /' "$1"; }
debian=$root/rust/target/debian/Cargo.lock
if [ -f "$debian" ]; then
    own "$root/rust/Cargo.lock" >committed
    own "$debian" >needed
    if cmp -s committed needed; then
        echo "ground: the lock file: ok"
    else
        diff committed needed >&2 || true
        bad "rust/Cargo.lock is not what the crates need"
    fi
fi
exit $failed
