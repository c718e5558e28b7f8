# Every must-fail edit is refused by a fact that fails, and not because the edit itself is broken: a name out of scope, a text
# that does not parse, a field, a goal or an import that is not there. `rt ci` fails for none of these, so this reads what it said of
# each edit, which .ci/run left in target/ci.log: the first thing that the prover refused, in a line of 160 characters.
set -eu
cd "$(dirname "$0")/.."
log=target/ci.log

# what the prover says where a fact fails; whatever else it says first is taken for a broken edit
fact='the two (types|indices|sides) |^computed as a goal is, one side reads |^expected type |^`omega`: .* does not follow |^give a proof of that as the last argument|^list the missing equation |^`search`: no proof of |^`search` found no proof \(|^it is not proved that |^this `[^`]*` lands at index '
# a proof step that finds nothing to do says less of the fact: such an edit is let through, and named
blunt='^`rw`: no occurrence |^`simp`: no equation of the list has an instance '
# and what no edit may lead to, wherever it stands
broken='is not in scope|has no field|has no `|can be named from here|error\['

edits=0 failed=0
bad() { printf 'edits: %s\n' "$*" >&2; failed=$((failed + 1)); }
[ -f "$log" ] || { bad "there is no $log: run \`make test\`, or \`rt ci 2>&1 | tee $log\`"; exit 1; }

for edit in crates/*/must-fail/*.edit; do
    crate=${edit#crates/} crate=${crate%%/*} label=$(basename "$edit" .edit)
    edits=$((edits + 1))
    said=$(sed -n "s,^rt: must-fail $crate/$label\.edit: ,,p" "$log" | tail -n 1)
    case $said in
    'refused, as it must be: '*) ;;
    'refused, as it must be'*) bad "$crate/$label is refused, and by no fact: $(printf %.200s "$said")"; continue ;;
    '') bad "$crate/$label was not tried: rt ci says nothing of it"; continue ;;
    *) bad "$crate/$label: $(printf %.200s "$said")"; continue ;;
    esac
    first=$(printf '%s\n' "${said#refused, as it must be: }" | sed -E 's/^.*: error: //; s/^note: [^ ]*: //')
    of=$(printf '%s\n' "$first" | sed -E 's/^`[^`]*`: //')
    if printf '%s\n' "$said" | grep -E -q "$broken"; then bad "$crate/$label is a broken edit: $(printf %.200s "$said")"
    elif printf '%s\n' "$of" | grep -E -q "$blunt"; then printf 'edits: %s is blunt: %.100s\n' "$crate/$label" "$first"
    elif ! printf '%s\n' "$of" | grep -E -q "$fact"; then bad "$crate/$label is refused by no fact that is known here: $(printf %.200s "$first")"
    fi
done

[ "$edits" -gt 0 ] || bad "there are none"
[ "$failed" -eq 0 ] || { printf 'edits: %s of %s\n' "$failed" "$edits" >&2; exit 1; }
echo "edits: each of $edits is refused by a fact"
