#!/usr/bin/env bash
# The pictures are those that `make diagram` draws now; docs/ARCHITECTURE.md has a row for each crate, in the order of the bands, and every file that it
# names is there. A name with a slash in backquotes is a path in the repository or in crates/, and may lack its ending. Then the tests of the programs that draw
# the pictures and write the reading list: a crate without a band, a call that the library has not, and a call with what its caller does not hold are errors.
set -euo pipefail
. "$(dirname "$0")/common.sh"
temporary
page=docs/ARCHITECTURE.md
for picture in crates chain; do
    make -s target/$picture.svg
    cmp docs/$picture.svg target/$picture.svg || fail "docs/$picture.svg is not what is drawn now: make diagram"
    grep -q "]($picture.svg)" $page || fail "$page does not show $picture.svg"
done

# The table of the crates.
expected=$(sed -n 's/^\([a-z0-9_]*\): .*/\1/p' docs/crates-in-words.txt)
listed=$(sed -n '/^| crate |/,/^$/s/^| `\([a-z0-9_]*\)` |.*/\1/p' $page)
diff <(echo "$expected") <(echo "$listed") || fail "$page has another list of crates than docs/crates-in-words.txt"

# Whether a path is there, as it stands or with an ending.
there() { [ -e "$1" ] || compgen -G "$1.*" >/dev/null; }
for name in $(grep -o '`[^` ]*/[^` ]*`' $page | tr -d '`' | sort -u); do
    there "$name" || there "crates/$name" || fail "$page names $name"
    passed=$((passed + 1))
done
[ "$passed" -gt 100 ] || fail "only $passed names found in $page"

program_output=$folder/tests
cargo test --release --offline --manifest-path tools/Cargo.toml >"$program_output" 2>&1 || fail 'the tests of tools/'
echo "architecture: two pictures drawn from these sources, a row for each of $(wc -l <<<"$listed") crates, and $passed names are there"
