# The number of the C boundary: header, Rust crate and archive say the same one, and what the header says is what tests/abi has
# for it. So a struct, a signature or a number can't change while its number stays. Comments and blanks may change.
set -eu
cd "$(dirname "$0")/.."
header=include/tamezohishu.h crate=rust/tamezohishu/src/ffi.rs calls=crates/export/src/calls.rt spec=crates/export_rules/specs/Boundary.antt
failed=0
bad() { printf 'abi: %s\n' "$*" >&2; failed=1; }

# The header without comments, each run of blanks one space, no empty lines.
bare() {
    awk '{ text = text $0 "\n" }
        END {
            while ((from = index(text, "/*")) > 0) {
                rest = substr(text, from + 2)
                to = index(rest, "*/")
                if (to == 0) { print "abi: a comment without its end" > "/dev/stderr"; exit 1 }
                text = substr(text, 1, from - 1) " " substr(rest, to + 2)
            }
            printf "%s", text
        }' "$header" | sed -e 's,//.*,,' -e 's/[[:blank:]][[:blank:]]*/ /g' -e 's/^ //' -e 's/ $//' -e '/^$/d'
}

# number FILE SED-SCRIPT: the one number that the script prints of the file
number() {
    found=$(sed -n "$2" "$1")
    case $found in
        '' | *[!0-9]*) bad "$1: its number is not found"; echo none ;;
        *) echo "$found" ;;
    esac
}

wanted=$(number "$header" 's/^#define TZ_ABI \([0-9][0-9]*\)$/\1/p')
for place in "$crate|s/^pub const ABI: u32 = \([0-9][0-9]*\);\$/\1/p" \
    "$calls|/fn tz_abi()/,/^}/s/^    \([0-9][0-9]*\)\$/\1/p" \
    "$spec|s/^abi = \([0-9][0-9]*\)\$/\1/p"; do
    file=${place%%|*}
    told=$(number "$file" "${place#*|}")
    [ "$told" = "$wanted" ] || bad "$file has number $told, $header has $wanted"
done

hash=$(bare | sha256sum | cut -d ' ' -f 1)
kept=$(grep -v '^#' tests/abi || true)
if [ "$kept" != "$wanted $hash" ]; then
    if [ "${kept%% *}" = "$wanted" ]; then
        bad "$header has changed and its number is still $wanted: raise it in all four places"
    else
        bad "number $wanted is new to tests/abi, whose line becomes: $wanted $hash"
    fi
fi
[ $failed = 0 ] || { sed -n 's/^# /abi: /p' tests/abi >&2; exit 1; }
echo "abi: number $wanted in header, crate and archive: ok"
