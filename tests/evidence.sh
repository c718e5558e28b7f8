# The map of evidence can't rot: every crate, file, function, definition, theorem and must-fail edit that docs/EVIDENCE.md and its
# pages name exists; the row of a theorem names a definition that the theorem's file has, and what a must-fail edit changes is
# named on a page; every public function, every must-fail edit and every number of document 01's two tables, of the builder and of
# a replay's stops stands there; each page is in the index, and short. So does each point that the independent reading settled, in
# docs/DECISIONS.md.
set -eu
cd "$(dirname "$0")/.."
pages="docs/EVIDENCE.md $(echo docs/evidence/*.md)"
room=$(mktemp -d)
trap 'rm -rf "$room"' EXIT
failed=0
bad() { echo "evidence: $1" >&2; failed=1; }

# the words in backticks, code blocks and equations aside
map=$room/map
# shellcheck disable=SC2086
cat $pages >"$map"
grep -o '`[^`]*`' "$map" | tr -d '`' | sort -u >"$room/words"

# every word of the sources: names of Rattle, and names of antt with their dashes
cat crates/*/src/*.rt | grep -oE '[A-Za-z_][A-Za-z0-9_]*' | sort -u >"$room/code"
cat crates/*/specs/*.antt crates/*/proofs/*.antt | tr ' (){};,' '\n\n\n\n\n\n\n\n' | sort -u >"$room/defs"
known() { grep -qxF -e "$1" "$room/code" || grep -qxF -e "$1" "$room/defs"; }

while IFS= read -r word; do
    case $word in
    *[[:space:]]* | *'≡'* | *'('* | *=* | *::* | *NAME* | //* | stdout | -* | '') continue ;;         # a statement quoted whole, or no name
    .ci/* | crates/* | docs/* | tests/* | include/* | examples/* | rust/* | bin/*)
        [ -e "${word%%:*}" ] || bad "$word is no file" ;;
    */*)
        crate=${word%%/*} name=${word#*/}
        case $name in
        specs/*.antt | proofs/*.antt | src/*.rt) [ -e "crates/$crate/$name" ] || bad "$word is no file" ;;
        *.rt) [ -e "crates/$crate/src/$name" ] || bad "$word is no file of the sources" ;;
        [A-Z]*) [ -e "crates/$crate/specs/$name.antt" ] || [ -e "crates/$crate/proofs/$name.antt" ] || bad "$word is no file of definitions or theorems" ;;
        *) [ -e "crates/$crate/must-fail/$name.edit" ] || bad "$word is no must-fail edit" ;;
        esac ;;
    From\<*\>) grep -qF "impl $word for " crates/*/src/*.rt || bad "$word is named, and nothing has that conversion" ;;
    *.rt | *.antt | *.sh | *.h) ;;                                                   # named beside its crate
    *) known "$word" || [ -d "crates/$word" ] || bad "$word is named, and nothing has that name" ;;
    esac
done <"$room/words"

# every must-fail edit stands in the appendix, and a page names what it changes
bin/edits --check >"$room/edits" || failed=1
sed 's/^/evidence: /' "$room/edits"

# a page opens on a screen or two: it is in the index, and has no long lines
for page in docs/evidence/*.md docs/evidence/edits/*.md; do
    grep -qF "](${page#docs/})" docs/EVIDENCE.md || bad "$page is not in the index"
    [ "$(wc -l <"$page")" -le 120 ] || bad "$page has more than 120 lines"
done
# shellcheck disable=SC2086
awk 'length > 300 { print FILENAME ", line " FNR " has " length " characters" }' $pages docs/evidence/edits/*.md >"$room/long"
while IFS= read -r line; do bad "$line"; done <"$room/long"

# public functions of the libraries: programs have none
for source in crates/*/src/*.rt; do
    [ -e "$(dirname "$source")/main.rt" ] && continue
    grep -oE '^( {4})?pub (extern "C" )?fn [a-z_0-9]+' "$source" | awk '{ print $NF }' | while IFS= read -r name; do
        grep -qE "(^|[^a-z_])$name([^a-z_]|\$)" "$room/words" || echo "$name of $source"
    done
done >"$room/missing"
while IFS= read -r line; do bad "the public function $line is not in the map"; done <"$room/missing"

# each answer and each refusal has its line: "| 10 ..", "22 to 29", "1 .. 7"
for n in 10 11 12 13 14 15 20 21 22 23 24 25 26 27 28 29 30 31 32 33 34 40 41 42 43 44 60 61 62 63; do
    grep -qE "^\\|.*(^|[^0-9])$n([^0-9]|\$)" "$map" || bad "answer $n is not in the map"
done

# each theorem stands over a definition of its row
python3 tests/evidence_rows.py >"$room/rows" || failed=1
sed 's/^/evidence: /' "$room/rows"

# each point that the independent reading had to settle stands among the decisions, with a definition that exists
section=$(sed -n '/^## Where the papers are silent/,/^## Repository/p' docs/DECISIONS.md)
for n in $(sed -nE 's/^([0-9]+)\. .*/\1/p' rust/reading/POINTS.md); do
    printf '%s\n' "$section" | grep -qE "^\\| ([0-9]+, )*$n(, [0-9]+)* \\|" || bad "point $n of the reading is not in docs/DECISIONS.md"
done
for word in $(printf '%s\n' "$section" | sed -nE 's/^\| [0-9].*\| ([^|]*) \|$/\1/p' | grep -oE '`[A-Za-z_0-9]+`' | tr -d '`'); do
    known "$word" || [ "$word" = stdout ] || bad "docs/DECISIONS.md names $word, and nothing has that name"
done
[ $failed = 0 ] && echo "evidence: $(wc -l <"$room/words") names, all there; nothing is missing from the map"
exit $failed
