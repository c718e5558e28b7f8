# What README and FORMATS say beside the commands that they show (those tests/shown.py runs): the packets in their tables, the words
# of refusals, which files a reviewer has to read and how much that is, and how many public functions are internal. And that every
# file and folder of the repository that they and the other pages name is there (of the evidence tests/evidence.sh says it).
set -eu
cd "$(dirname "$0")/.."
room=$(mktemp -d)
trap 'rm -rf "$room"' EXIT
failed=0
bad() { echo "readme: $1" >&2; failed=1; }

# the example in hex is configuration C
bin/hex examples/session/c.hex >"$room/c.cfg"
cmp -s "$room/c.cfg" crates/step/data/path.cfg || bad "examples/session/c.hex is not configuration C"

# the packets of the README and of docs/FORMATS.md, by the program as printed there
arm=$(bin/ground build --apid 1 --count 0 --id 100 --args 02)
for page in README.md docs/FORMATS.md; do
    case $(cat "$page") in *"${arm#0 }"*) ;; *) bad "$page does not have ARM as bin/ground builds it" ;; esac
done
awk '/^A spreadsheet|^`bin.ground build --csv FILE/ { shown = 1 } shown && /^```/ { fence++; next } shown && fence == 1' docs/FORMATS.md >"$room/sheet"
cmp -s "$room/sheet" examples/ground/session.csv || bad "docs/FORMATS.md shows another sheet than examples/ground/session.csv"
rows=0
while IFS='|' read -r _ apid count id args pads wanted _; do
    plain() { printf '%s' "$1" | tr -d ' ,`'; }
    said=$(bin/ground build --apid "$(plain "$apid")" --count "$(plain "$count")" --id "$(plain "$id")" --args "$(printf '%s' "$args" | tr -d '`')" \
        --pads "$(plain "$pads")" 2>/dev/null) || true
    case $(printf '%s' "$wanted" | tr -d '`') in *"${said#0 }"*) rows=$((rows + 1)) ;; *) bad "docs/FORMATS.md has$wanted for $said" ;; esac
done <<ROWS
$(awk '/^## / { shown = 0 } /^PAD from its fields/ { shown = 1 } shown && /^\| [0-9]/' docs/FORMATS.md)
ROWS
[ "$rows" = 3 ] || bad "docs/FORMATS.md has $rows packets from their fields and not 3"

# every number has the same words in the Rust crate, in the C header and in the README; what is loaded, built and replayed in FORMATS too
sed -nE '/ FaultState [{]/,$d; s/^ *[A-Za-z]+ = ([1-9][0-9]*): "(.*)",$/\1 \2/p' rust/tamezohishu/src/numbers.rs | sort -nu >"$room/words"
numbers=$(cut -d' ' -f1 "$room/words" | tr '\n' ' ')
wanted="$(seq -s ' ' 1 7) $(seq -s ' ' 10 15) $(seq -s ' ' 20 34) $(seq -s ' ' 40 44) $(seq -s ' ' 60 63) "
[ "$numbers" = "$wanted" ] || bad "the Rust crate names $numbers"
sed 's,^| 14 / 15 | tick / \(.*\) | none |$,| 14 | tick | none |\n| 15 | \1 | none |,' README.md >"$room/README.md"
while read -r number words; do
    grep -qE "= $number,? +/\* ${words//+/\\+} \*/" include/tamezohishu.h || bad "the C header has other words for $number than: $words"
    grep -qF "| $number | $words |" "$room/README.md" || grep -qF "| $number | $words: " "$room/README.md" || bad "README.md has other words for $number than: $words"
    case $number in
    ? | [46]?) grep -qF "| $number | $words" docs/FORMATS.md || bad "docs/FORMATS.md has other words for $number than: $words" ;;
    esac
done <"$room/words"

# every file and folder that a page names is there: from the root, or from a crate's name on
for page in README.md docs/BENCHMARKS.md docs/DECISIONS.md docs/FORMATS.md docs/PROVING.md; do
    for word in $(grep -oE '`[.A-Za-z0-9_-]+/[./A-Za-z0-9_-]*`' "$page" | tr -d '`' | sort -u); do
        case $word in
        .ci/* | bin/* | crates/* | docs/* | examples/* | include/* | rust/* | tests/*) path=$word ;;
        */specs/* | */src/* | */proofs/* | */must-fail/*) path=crates/$word ;;
        *) continue ;;
        esac
        [ -e "$path" ] || bad "$page names $word, which is not there"
    done
done

# files_in TEXT: the files under crates/ that a text names; one without its folder stands in the folder before it
files_in() {
    printf '%s\n' "$1" | grep -oE '`[A-Za-z_/]+\.(antt|rt)`' | tr -d '`' | grep -v '^crates/' |
        awk -F/ '{ if (NF > 1) folder = $1 "/" $2; print "crates/" folder "/" $NF }'
}

# the files to believe: those that the contract of `replay` reaches, and no others
sentence=$(grep '^A reviewer who reads these' README.md)
files_in "$sentence" | sort >"$room/named"
bin/reached crates/replay/src/replay.rt replay | cut -d' ' -f1 | sort >"$room/reached"
for file in $(comm -13 "$room/named" "$room/reached"); do bad "the contract of replay reaches $file, which is not among the files to believe"; done
for file in $(comm -23 "$room/named" "$room/reached"); do bad "$file is among the files to believe, and the contract of replay does not reach it"; done

# and behind them, for the other entry points: what their contracts reach
files_in "$(sed -n '/^## Where to read/,/^`docs.EVIDENCE/p' README.md)" | sort -u >"$room/named"
for source in crates/*/src/*.rt; do
    case $source in crates/export/* | crates/replay/* | crates/step_any_*/* | crates/state_check/* | crates/image_load/* | crates/packet_judge/* | crates/packet_header/* | crates/build_packet/*) ;; *) continue ;; esac
    for name in $(awk '/internal:/ { inner = 1 } /^pub .*fn / && !inner { sub(/.*fn /, ""); sub(/[^a-z_0-9].*/, ""); print } /^}/ { inner = 0 }' "$source"); do
        bin/reached "$source" "$name" >"$room/reached" || echo "what $name of $source reaches can't be followed"
        cut -d' ' -f1 "$room/reached" | grep 'antt$' | sort | comm -13 "$room/named" - | sed "s,.*,$name of $source reaches & and README does not name it,"
    done
done >"$room/missing"
while IFS= read -r line; do bad "$line"; done <"$room/missing"

# the public functions of the libraries: how many, and how many of them ask for something; these, and no others, are marked
for source in crates/*/src/*.rt; do
    [ -e "$(dirname "$source")/main.rt" ] || awk -v file="$source" '
        /^ *\/\/ internal:/ { marked = 1 }
        /^(    )?(pub |pub\(crate\) )?(extern "C" )?fn / { public = /^(    )?pub /; head = 1; asks = 0; name = $0; sub(/.*fn /, "", name); sub(/[^a-z_0-9].*/, "", name) }
        head && /^ +requires/ { asks = 1 }
        head && /^(    )?[{]$|^(    )?[^ ].* [{]$/ { if (public) print (asks ? "internal" : "open"), (marked == asks ? "" : name " of " file); head = 0; marked = 0 }' "$source"
done >"$room/functions"
while read -r _ wrong; do
    [ -z "$wrong" ] || bad "$wrong has a requires and no mark, or a mark and no requires"
done <"$room/functions"
inner=$(grep -c '^internal' "$room/functions") all=$(wc -l <"$room/functions")
grep -qF "Of the $all public functions of the libraries $inner are no entry points" README.md || bad "there are $all public functions, $inner of them internal"
grep -qF "The other $((all - inner)) ask for nothing." README.md || bad "$((all - inner)) public functions ask for nothing"

# how much that is: the number of files, their lines, and those of them that are neither import nor comment nor empty
files=$(files_in "$sentence" | grep 'antt$')
# shellcheck disable=SC2086
said="$(printf '%s\n' "$files" | wc -l) files, $(cat $files | wc -l | sed -E 's/^([0-9]+)([0-9]{3})$/\1,\2/') lines of which $(cat $files | grep -cvE '^use |^ *$|^ *--') are definitions"
case $sentence in *"$said"*) ;; *) bad "the files to believe are $said" ;; esac

[ $failed = 0 ] && echo "readme: the packets, the words, the files named and the count of what to read: ok"
exit $failed
