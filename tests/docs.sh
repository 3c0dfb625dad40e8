#!/usr/bin/env bash
# The figures and outputs that the documents show are those of this repository, their links lead somewhere, and README.md is short. tests/audit.sh does the
# same for the auditor's pages.
set -euo pipefail
. "$(dirname "$0")/common.sh"
indented() { sed 's/^/    /' "$1"; }
shows README.md "$(cat examples/c/decide_one.c)" 'decide_one.c'
shows README.md "$(sed -n 's/^  puts(.* ? "\([^"]*\)" .*/    \1/p' examples/c/decide_one.c)" 'output of decide_one'
shows README.md "$(sed -n '/^```rust$/,/^```$/p' rust/lomvuze/README.md)" 'program in Rust'
shows README.md "$(cat toolchain.txt)" 'version of the toolchain'
shows README.md "$(indented examples/c/fold_batch.expected | grep '^    item 7: x')" 'item of the demo'
shows README.md "$(indented examples/c/fold_batch.expected | grep -A 2 '^    verify ')" 'verdicts of fold_batch'
shows README.md "$(indented make/refusal.expected | grep -A 2 '^    verify ')" 'refusal'
shows docs/OBLIGATIONS.md "$(cat examples/c/obligations/table.expected)" 'table of obligations'
for page in README.md docs/SHEETS.md; do
    shows $page "$(indented examples/sheets/printed.listing)" 'listing of the printed sheet'
done

# Copies of files, since rt ci takes no links.
for copy in rust/{calls,lomvuze,verdicts}/LICENSE=LICENSE examples/sheets/printed.{sheet=crates/claims/stdin,listing=crates/claims/stdout}; do
    cmp "${copy%=*}" "${copy#*=}" || fail "${copy%=*} is no copy of ${copy#*=}"
    shown=$((shown + 1))
done

# What a newcomer reads to the end.
words=$(wc -w <README.md)
[ "$words" -le 2500 ] || fail "README.md has $words words, and 2,500 at most are to be read"

# Every link of a page leads to a file, and to a heading where it names one (#name, as a heading's words in lower case with hyphens).
links=0
for page in $(find . -name '*.md' -not -path './target/*' -not -path './rust/target/*' -not -path './tools/target/*'); do
    for link in $({ grep -o '](\([^)]*\))' "$page" | sed 's/^](//; s/)$//'; sed -n 's/^\[[^]]*\]: //p' "$page"; } | grep -v '^https\?:' || true); do
        file=${link%%#*} heading=${link#"${link%%#*}"}
        [ -n "$file" ] && file=$(dirname "$page")/$file || file=$page
        [ -e "$file" ] || fail "$page links to $link, which is not there"
        if [ -n "$heading" ]; then
            headings=$(sed -n 's/^##* //p' "$file" | tr 'A-Z ' 'a-z-' | tr -dc 'a-z0-9\n_-')
            grep -qx -- "${heading#\#}" <<<"$headings" || fail "$page links to $link, a heading that is not there"
        fi
        links=$((links + 1))
    done
done
[ "$links" -gt 20 ] || fail "$links links found"
echo "documents: $links links lead somewhere"
echo "documents: $shown tables and outputs as they are"
bash tests/audit.sh
