#!/usr/bin/env bash
# The examples of the Rust crate: what fold_two prints; and that fold_sheet ends with 0 only where each expected statement is covered, no more and no
# fewer, each of its exit statuses, and the circuit's digest beside sha256sum. LOMVUZE_STATICLIB names another folder with libverdicts.a in it.
set -euo pipefail
. "$(dirname "$0")/common.sh"
temporary
cargo build --quiet --release --offline --manifest-path rust/Cargo.toml -p lomvuze --examples
examples=rust/lomvuze/examples sheets=examples/sheets out=$folder/out runs=0

# run EXAMPLE STATUS ARGUMENT..: runs an example, which has to end with the status. What it prints, to both streams, is in $out.
run() {
    local code=0
    "rust/target/release/examples/$1" "${@:3}" >"$out" 2>&1 || code=$?
    [ "$code" = "$2" ] || fail "$1 ${*:3}: status $code, and not $2: $(cat "$out")"
    runs=$((runs + 1))
}
prints() { diff "$1" "$out" || fail "another output than $1"; }
# Each text is a line of the output; each is not.
says() { for line in "$@"; do grep -qxF -- "$line" "$out" || fail "no line '$line' in: $(cat "$out")"; done; }
never_says() { for line in "$@"; do ! grep -qF -- "$line" "$out" || fail "'$line' in: $(cat "$out")"; done; }

# ---- fold_two
run fold_two 0
prints $examples/fold_two.expected
run fold_two 1 1
sed '/^challenge/,$d' $examples/fold_two.expected >"$folder/refused"
printf '%s\n' 'challenge: 1' 'refused by check 5: the challenge is not permitted' 'covered: 0 of 2 items' >>"$folder/refused"
prints "$folder/refused"
run fold_two 2 two
says "fold_two: 'two' is no number of 32 bits" 'usage: fold_two [CHALLENGE]'

# ---- fold_sheet: all that it prints, and which items are not covered
run fold_sheet 1 $sheets/printed.sheet
prints $examples/fold_sheet/printed.expected
run fold_sheet 0 $sheets/twenty.sheet --expected $sheets/twenty.statements
prints $examples/fold_sheet/twenty.expected
run fold_sheet 1 $sheets/refused-2.sheet
says 'sheet: refused by check 2: a size, count or length is not permitted'
run fold_sheet 1 $sheets/refused-13.sheet --expected-count 1
says "sheet: refused by check 13: an item's first input is not 1"
run fold_sheet 0 <(sed 's/\t21\t/\t20\t/' $sheets/printed.sheet) --expected-count 2
says 'covered: 2 of the 2 items on the sheet'
# A root that is not that of the witness; and 4 × 5 = 21 with an e that makes it hold.
run fold_sheet 1 <(sed '/\t21\t/s/0$/1/' $sheets/printed.sheet)
says 'covered: 1 of the 2 items on the sheet' 'not covered: item 1, refused by check 10: a root is not that of its witness'
run fold_sheet 1 <(sed 's/\t0\t1\t21\t/\t2013265920\t1\t21\t/' $sheets/printed.sheet)
says 'covered: 1 of the 2 items on the sheet' 'not covered: item 1, not fresh: its e is not 0'
# Of twenty, the totals of two changed: their folds are of others.
awk -F'\t' -v OFS='\t' '$1 == "item" && (n++ == 9 || n == 20) { $6++ } { print }' $sheets/twenty.sheet >"$folder/two-changed"
run fold_sheet 1 "$folder/two-changed" --expected $sheets/twenty.statements
says 'covered: 18 of the 20 items on the sheet' 'not covered: item 9, refused by check 11: an item does not hold' \
    'not covered: item 19, refused by check 11: an item does not hold' \
    "expected: 20 statements by $sheets/twenty.statements, of which 18 are covered" \
    'missing: line 11, x = [1, 173274, 866574, 9318]'
# An item that nobody expected, and that no verdict covers: the sheet is not as expected either.
run fold_sheet 1 $sheets/printed.sheet --expected <(echo 1 6)
says 'not covered: item 1, refused by check 11: an item does not hold' 'result: not as expected; not covered on the sheet: 1'
# Two rows of which row 1 is false: the sheet's r = 0 gives it no weight.
zeros=$(printf '%064d' 0)
run fold_sheet 1 <(printf '%s\n' 'size 1 3 2' 'a 0 3 1' 'a 1 3 1' 'b 0 4 1' 'b 1 3 1' 'c 0 1 1' 'c 1 2 1' "item 0 0 1 6 5 $zeros" 'wit 2 3' 'end 1' | tr ' ' '\t')
says 'covered: 0 of the 1 items on the sheet' 'not covered: item 0, refused by check 11: an item does not hold'

# ---- Batches of 32 statements. The ledger has 101 × 2 to 101 × 33.
circuit=$(sed -n '/^[sabc]/p' $sheets/printed.sheet)
# sheet FACTOR..: a sheet that says 101 × FACTOR for each, and counts its pairs itself.
sheet() {
    printf '%s\n' "$circuit"
    for factor in "$@"; do printf 'item\t0\t1\t%s\t%s\nwit\t%s\t101\n' $((101 * factor)) "$zeros" "$factor"; done
    printf 'end\t%s\n' $#
}
for factor in {2..33}; do echo 1 $((101 * factor)); done >"$folder/ledger"
missing='missing: line 32, x = [1, 3333]'
cannot_tell='result: nothing says what was expected, so whether a statement is missing cannot be told: --expected LIST, made from the ledger, says it, or --expected-count N how many'
as_expected='result: every expected statement is covered, no more and no fewer'
a_count='result: 32 different statements are covered, as many as were expected; whether they are these, a count does not say'

sheet {2..33} >"$folder/whole"
run fold_sheet 0 "$folder/whole" --expected "$folder/ledger"
says 'covered: 32 of the 32 items on the sheet' "expected: 32 statements by $folder/ledger, of which 32 are covered" "$as_expected"
says '  at up to 14 of the 2013265913 challenges a list with a false item can pass, for one quotient and one set of 2 positions (more by a SHA-256 collision)'
root=$(sed -n 's/^covered: item 31, x = \[1, 3333\], root = //p' "$out")
[[ $root =~ ^[0-9a-f]{64}$ && $root != "$zeros" ]] || fail "no root beside the last item: $root"
run fold_sheet 0 "$folder/whole" --expected-count 32
says 'expected: 32 statements, by their count alone' "$a_count"
run fold_sheet 0 "$folder/whole" --expected "$folder/ledger" --expected-count 32
run fold_sheet 1 "$folder/whole" --expected "$folder/ledger" --expected-count 33
run fold_sheet 3 "$folder/whole"
says "$cannot_tell"
never_says "$as_expected"

# The last pair is lost, and the rest counted.
sheet {2..32} >"$folder/lost"
run fold_sheet 1 "$folder/lost" --expected "$folder/ledger"
says 'covered: 31 of the 31 items on the sheet' "$missing" 'result: not as expected; missing: 1'
never_says "$as_expected" 'not expected: '
run fold_sheet 1 "$folder/lost" --expected-count 32
says 'result: not as expected; 31 items are covered, with 31 different statements, and not 32'
run fold_sheet 3 "$folder/lost"
says "$cannot_tell"

# The first pair in the place of the last.
sheet {2..32} 2 >"$folder/repeated"
run fold_sheet 1 "$folder/repeated" --expected "$folder/ledger"
says 'covered: 32 of the 32 items on the sheet' 'equal: items 0 and 31 have the same x and the same root' "$missing" \
    'result: not as expected; missing: 1; covered and not expected: 1'
grep -qx 'not expected: item 31, x = \[1, 202\], root = [0-9a-f]*' "$out" || fail "the repeated item is not named: $(cat "$out")"
run fold_sheet 1 "$folder/repeated" --expected-count 32
says 'result: not as expected; 32 items are covered, with 31 different statements, and not 32'

# Another statement in the place of the last: a count does not find it, and says so.
sheet {2..32} 34 >"$folder/exchanged"
run fold_sheet 1 "$folder/exchanged" --expected "$folder/ledger"
says "$missing"
grep -qx 'not expected: item 31, x = \[1, 3434\], root = [0-9a-f]*' "$out" || fail "the exchanged item is not named: $(cat "$out")"
run fold_sheet 0 "$folder/exchanged" --expected-count 32
says "$a_count"
never_says "$as_expected"

# One item more than was expected.
sheet {2..34} >"$folder/more"
run fold_sheet 1 "$folder/more" --expected "$folder/ledger"
never_says 'missing: '
says 'result: not as expected; covered and not expected: 1'
run fold_sheet 1 "$folder/more" --expected-count 32

# ---- Equal items. A list may name a statement twice; a count takes none twice.
run fold_sheet 0 "$folder/repeated" --expected <(sed '$d' "$folder/ledger"; head -n 1 "$folder/ledger")
says 'equal: items 0 and 31 have the same x and the same root' "$as_expected"
{ sheet 2 | sed '$d'; printf 'item\t0\t1\t202\t%s\nwit\t101\t2\nend\t2\n' "$zeros"; } >"$folder/same-x"
run fold_sheet 1 "$folder/same-x" --expected-count 2
says 'equal: items 0 and 1 have the same x, and another root'
printf '%s\n' 'size 0 3 2' 'a 0 3 1' 'b 0 4 1' 'c 0 1 1' "item 0 1 6 7 $zeros" 'wit 2 3' "item 0 1 6 8 $zeros" 'wit 2 3' 'end 2' | tr ' ' '\t' >"$folder/same-root"
run fold_sheet 0 "$folder/same-root" --expected <(printf '1 6 7\n1 6 8\n')
says 'equal: items 0 and 1 have the same root, and another x'

# ---- The list: any order, comments, tabs, blanks, carriage returns
run fold_sheet 0 "$folder/whole" --expected <(printf '# all\r\n\n'; tac "$folder/ledger" | sed 's/ /\t /; s/$/  # from the ledger\r/')
# Lists that are none, each with what is said.
unusable() {
    run fold_sheet 2 "$folder/whole" --expected "$folder/list"
    says "fold_sheet: $folder/list$1"
    never_says 'result: '
}
printf '1 6\n# a comment\n1 six\n' >"$folder/list"
unusable ", line 3: 'six' is no number of 32 bits"
printf '1 6\n6\n' >"$folder/list"
unusable ', line 2: x begins with 1, and this with 6'
printf '1 6 7\n' >"$folder/list"
unusable ", line 1: 3 numbers, and the sheet's x has 2, the leading 1 among them"
printf '1 \377\n' >"$folder/list"
unusable ' is no text in UTF-8'
rm "$folder/list"
unusable ' cannot be read: No such file or directory (os error 2)'
: >"$folder/list"
run fold_sheet 1 "$folder/whole" --expected "$folder/list"

# ---- The circuit's digest: over the bytes that --help describes, as sha256sum has it
four() { local number; for number in "$@"; do printf "\\x$(printf %02x "$number")\\x00\\x00\\x00"; done; }
{ printf '\x06'; four 0 2 2; four 1 0 2 1; four 1 0 3 1; four 1 0 1 1; } >"$folder/by-hand"
digest=$(sha256sum <"$folder/by-hand" | cut -d' ' -f1)
run fold_sheet 0 "$folder/whole" --expected "$folder/ledger" --circuit-file "$folder/circuit" --circuit-digest "$digest"
cmp "$folder/by-hand" "$folder/circuit" || fail 'other bytes of the circuit'
says "circuit: SHA-256 = $digest, which is the agreed one"
run fold_sheet 0 "$folder/whole" --expected "$folder/ledger" --circuit-digest "${digest^^}"
run fold_sheet 3 $sheets/twenty.sheet --circuit-file "$folder/circuit"
says "circuit: SHA-256 = $(sha256sum <"$folder/circuit" | cut -d' ' -f1), compared with none (--circuit-digest)"
# Another circuit, which is accepted by itself: w0 × x1 = x1.
sed 's/^b\t0\t3/b\t0\t1/; s/^wit\t[0-9]*/wit\t1/' "$folder/whole" >"$folder/other-circuit"
run fold_sheet 0 "$folder/other-circuit" --expected "$folder/ledger"
run fold_sheet 4 "$folder/other-circuit" --expected "$folder/ledger" --circuit-digest "$digest"
says 'result: the circuit is not the agreed one, and nothing is folded over it'
never_says 'fold 0' 'covered' "$digest"

# ---- Arguments
usage=$(grep '^usage: fold_sheet' $examples/fold_sheet/main.rs)
wrong() { # wrong WHAT ARGUMENT..
    run fold_sheet 2 "${@:2}"
    says "fold_sheet: $1"
    never_says 'result: '
}
wrong 'no SHEET is named'
says "$usage" '--help says more'
wrong 'nosuch cannot be read: No such file or directory (os error 2)' nosuch
wrong 'examples cannot be read: Is a directory (os error 21)' examples
wrong 'there is no option --expect' "$folder/whole" --expect "$folder/ledger"
wrong '--expected has nothing behind it' "$folder/whole" --expected
wrong 'SHEET is given twice' "$folder/whole" "$folder/lost"
wrong '--expected is given twice' "$folder/whole" --expected "$folder/ledger" --expected "$folder/ledger"
wrong "--expected-count takes a number, and 'all' is none" "$folder/whole" --expected-count all
wrong "--circuit-digest takes 64 hexadecimal digits, and '12' is not that" "$folder/whole" --circuit-digest 12
wrong "$folder cannot be written: Is a directory (os error 21)" "$folder/whole" --circuit-file "$folder"
run fold_sheet 0 --help
says "$usage"
for status in 0 1 2 3 4; do grep -q "^  $status  " "$out" || fail "--help does not say what status $status means"; done
echo "examples of the crate: $runs runs as expected"
