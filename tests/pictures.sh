# The pictures are true: bin/pictures draws them anew from the sources, and each is, byte for byte, the one in docs/pictures.
# It fails where a picture is stale, missing or no longer drawn, and where neither README nor docs/FORMATS.md shows it.
set -eu
cd "$(dirname "$0")/.."
room=$(mktemp -d)
trap 'rm -rf "$room"' EXIT
failed=0
bad() { echo "pictures: $1" >&2; failed=1; }

bin/pictures "$room" || exit 1
drawn=0
for picture in "$room"/*.svg; do
    name=$(basename "$picture")
    drawn=$((drawn + 1))
    cmp -s "$picture" "docs/pictures/$name" || bad "docs/pictures/$name is stale: run bin/pictures"
    grep -qF "(docs/pictures/$name)" README.md || grep -qF "(pictures/$name)" docs/FORMATS.md ||
        bad "neither README.md nor docs/FORMATS.md has a link to docs/pictures/$name"
done
for picture in docs/pictures/*; do
    [ -e "$room/$(basename "$picture")" ] || bad "$picture is not drawn by bin/pictures: remove it"
done
[ $failed = 0 ] && echo "pictures: $drawn, all as their sources have it: ok"
exit $failed
