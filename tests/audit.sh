#!/usr/bin/env bash
# The auditor's pages are those of this repository: docs/READING.md is the index of the list that `make reading` writes now, and has every theorem that a page
# names; docs/AUDIT.md has the counts of definitions and edits, the cases, the listing and the toolchain's version as they are.
set -euo pipefail
. "$(dirname "$0")/common.sh"
needs rt
page=docs/AUDIT.md
make -s target/reading-index.md
cmp docs/READING.md target/reading-index.md || fail 'docs/READING.md is not the index of what the definitions give now: make reading'
rests() { sed -n "s/^| $1 | \([0-9]*\) | \([0-9]*\) |\$/$2 on \1 definitions of \2 lines/p" docs/READING.md; }
shows $page "$(rests '`second-statement`' '`second-statement` rests')" 'count of the definitions that the second statement rests on'
shows $page "$(rests 'all the calls' 'all the calls together')" 'count of the definitions that the calls rest on'
shows $page "$(sed 's/^/    /' examples/sheets/case-8.listing)" 'listing of case 8'
shows $page "has $(find crates -path '*/must-fail/*.edit' | wc -l) edits" 'count of edits'

# Every theorem that a page names, a law of proofs/, is in the reading list.
pages=(README.md docs/{AUDIT,CALLS,FORMAT,OBLIGATIONS,SHEETS}.md)
for name in $(grep -ohE '`[a-zA-Z0-9_]+(-[a-z0-9_]+)+`' "${pages[@]}" | tr -d '`' | sort -u); do
    grep -qE "^ *pub $name :" crates/*/proofs/*.antt || continue
    grep -qF "| \`$name\` |" docs/READING.md || fail "a page names \`$name\`, and docs/READING.md has not what it rests on"
    passed=$((passed + 1))
done
[ "$passed" -gt 20 ] || fail "only $passed theorems are named"

# The greatest numbers of challenges.
for l in 1 2 3 4 5 6 7 8; do
    row="| $l |"
    for m in 0 1 2 3 4 5 6; do row+=" $(((l - 1) * (m + 2))) |"; done
    shows $page "$row" "number of challenges for l = $l"
done

# The toolchain is the one that toolchain.txt names; where another checks, the pages still say which one they speak of.
version=$(cat toolchain.txt)
shows $page "    $version" 'version of the toolchain'
shows $page "logic=proved functions=0 sum=${version##* } " 'sum on the check line'
[ "$(rt version)" = "$version" ] || echo "note: rt version prints $(rt version), and $page speaks of $version"

# The numbers of the cases, as the definition expects them and as the page has them.
expected=$(awk '/case [0-9]+ / {
    number = $0; sub(/.*case /, "", number); sub(/ .*/, "", number)
    list = $0
    if (sub(/ ∷ \[\]\)$/, "", list)) sub(/.*\(/, "", list); else list = ""
    gsub(/ ∷ /, ", ", list)
    print number ":" list
}' crates/theory/specs/Cases.antt)
listed=$(awk -F ' *[|] *' '/^## / { cases = /The cases/ } cases && $2 ~ /^[0-9]+$/ { print $2 ":" $4 }' $page)
[ -n "$expected" ] || fail 'crates/theory/specs/Cases.antt has no cases'
diff <(echo "$expected") <(echo "$listed") || fail "$page has other cases"
echo "audit: the index of the reading list with the $passed theorems that pages name, $shown figures and outputs, and $(wc -l <<<"$expected") lines of cases as they are"
