#!/usr/bin/env bash
# The circuit that was agreed on, beside the one that a file names: what differs is said, and a batch over a circuit of the registrar's own is refused. And
# counting challenges (examples/c/collect.c): one more than the bound is enough, and a registrar with a false item stays below. LOMVUZE_STATICLIB names
# another folder with libverdicts.a in it; nothing is proved then.
set -euo pipefail
. "$(dirname "$0")/common.sh"
. tests/c/stored.sh examples/c/{fold_batch,verify_batch,collect}.c tests/c/{spoil,forge}.c

# ---- The agreed circuit: that of the sheet of twenty, and of both stored files
grep '^[sabc]' examples/sheets/twenty.sheet | cmp - $agreed || fail "$agreed is not the circuit of twenty.sheet"
refused='refused: another circuit than was agreed on; nothing is verified'

# A registrar that brings a circuit without entries, with which a total of 999999999 is true.
"$folder/forge" empty examples/c/statements.bin "$damaged" >"$folder/out" || fail "forge: $(cat "$folder/out")"
after 3 "circuit: A has 0 entries, and 7 were agreed on
circuit: B has 0 entries, and 4 were agreed on
circuit: C has 0 entries, and 4 were agreed on
$refused" verify_batch
printf 'size\t2\t4\t8\n' >"$folder/empty.circuit" # the control: with its circuit agreed on, the batch is accepted
[[ "$("$folder/verify_batch" "$folder/empty.circuit" "$damaged")" == *'decide 0: accepted'*'accepted: one fold of items 0 to 7'* ]] || fail 'forge: another batch'
"$folder/forge" stated examples/c/statements.bin "$damaged" >"$folder/out" || fail "forge: $(cat "$folder/out")"
[[ "$("$folder/verify_batch" $agreed "$damaged")" == *$'verify 0: accepted;'*$'\ndecide 11: an item does not hold\n'"$none" ]] || fail 'decide has another circuit'
passed=$((passed + 2))

differs() { # differs TEXT PART... VALUE: of both files
    damage statements.bin "${@:2}"
    after 3 "$1"$'\n'"$refused" fold_batch
    expect 3 "$1"$'\n'"$refused" collect $agreed "$damaged"
    damage batch.bin "${@:2}"
    after 3 "$1"$'\n'"$refused" verify_batch
}
differs 'circuit: entry 5 of A is row 2, column 8, value 2013265919, and row 2, column 8, value 2013265920 was agreed on' entry a 5 value 2013265919
differs 'circuit: entry 3 of B is row 3, column 2, value 1, and row 3, column 3, value 1 was agreed on' entry b 3 column 2
differs 'circuit: entry 0 of C is row 4, column 1, value 1, and row 0, column 1, value 1 was agreed on' entry c 0 row 4
sed 's/^size.*/size\t2\t5\t16/' $agreed >"$folder/other.circuit"
other="circuit: n is 4, and 5 was agreed on
circuit: k is 8, and 16 was agreed on
$refused"
expect 3 "$other" verify_batch "$folder/other.circuit" examples/c/batch.bin
expect 3 "$other" fold_batch "$folder/other.circuit" examples/c/statements.bin
head -c -1 $agreed >"$folder/other.circuit" # without the last byte 10 it is the same
expect 0 "$(cat examples/c/fold_batch.expected)" fold_batch "$folder/other.circuit" examples/c/statements.bin

# An entry outside the rows, which was agreed on all the same: decide tests it.
sed 's/^a\t0\t4/a\t4\t4/' $agreed >"$folder/other.circuit"
damage batch.bin entry a 0 row 4
expect 1 "$circuit
$(lines '/^draw_challenge/,/^challenge/p; /^draw_positions/,/^different/p; /^verify/p')
decide 4: a circuit entry is outside or out of order
$none" verify_batch "$folder/other.circuit" "$damaged"

# Agreed circuits that cannot be used.
useless() { # useless TEXT: on standard input
    cat >"$folder/other.circuit"
    unusable "cannot use $folder/other.circuit: $1" verify_batch "$folder/other.circuit" examples/c/batch.bin
}
useless 'it is no circuit' </dev/null
useless 'it is no circuit' <examples/c/batch.bin
useless 'it is no circuit' < <(sed 's/^size.*/size\t2\t4/' $agreed)
useless 'it is no circuit' < <(sed 's/^size.*/size\t2\t4\t4294967304/' $agreed) # 8 and 2^32
for size in $'7\t4\t8' $'2\t0\t8' $'2\t65\t8' $'2\t4\t7'; do useless 'a size is not permitted' < <(sed "s/^size.*/size\t$size/" $agreed); done
useless 'line 17 is not' <examples/sheets/twenty.sheet
useless 'line 3 is not' < <(sed '3s/\t/ /' $agreed)
useless 'line 3 is not' < <(sed '3s/$/\t1/' $agreed)
useless 'line 2 is not' < <(sed 's/$/\r/; 1s/\r//' $agreed)
useless 'line 3 is not' < <(head -n 1 $agreed; tail -n 1 $agreed; sed 1d $agreed)
useless 'line 17 is not' < <(cat $agreed; head -c 200000 /dev/zero)
useless 'line 1026 is not' < <(head -n 1 $agreed; for entry in $(seq 0 1024); do printf 'a\t0\t%d\t1\n' "$entry"; done)
unusable "cannot use $folder/nothing: No such file" verify_batch "$folder/nothing" examples/c/batch.bin
unusable "cannot use $folder: " verify_batch $agreed "$folder"

# ---- collect: 29 challenges where the bound is 28, and a registrar with a false item that knows them beforehand
honest="$circuit
quotient 0: accepted
positions: 0 to 7 in every fold"
collected="$honest
accepted at 29 of 29 different challenges
shown: each of the items 0 to 7 holds, with the one witness that the values opened at these positions fix, or two different
strings that were hashed have one SHA-256 digest. The bound is (l - 1) * (m + 2) = 28 challenges."
expect 0 "$collected" collect $agreed examples/c/statements.bin
shown_as collect "$collected"
missing() { # missing ACCEPTED OF REFUSED MISSING WORD
    echo "accepted at $1 of $2 different challenges$3
not shown, with one quotient at these positions: $4 more $5 missing, since a list with a false item can pass at up to (l - 1) * (m + 2) = 28 challenges"
}
expect 1 "$honest
$(missing 28 28 '' 1 is)" collect --challenges 28 $agreed examples/c/statements.bin
expect 1 "$honest
$(missing 1 1 '' 28 are)" collect --challenges 1 $agreed examples/c/statements.bin
false_item="$circuit
item 7 is false: its payment is one higher; the registrar knows the challenges before it makes the quotient
positions: 0 to 7 in every fold"
expect 1 "$false_item
$(missing 21 29 '; decide refuses at 8' 8 are)" collect --false $agreed examples/c/statements.bin
shown_as 'collect --false' "$false_item
$(missing 21 29 '; decide refuses at 8' 8 are)"
expect 1 "$false_item
$(missing 21 100 '; decide refuses at 79' 8 are)" collect --challenges 100 --false $agreed examples/c/statements.bin
damage statements.bin witness 7 0 0
expect 1 "$circuit
quotient 10: a root is not that of its witness
$none" collect $agreed "$damaged"
expect 2 "$circuit" collect --false $agreed "$damaged"
damage statements.bin item 2 e 1
expect 1 "$circuit
item 2: e = 1, which is no fresh statement
$none" collect $agreed "$damaged"
for number in 0 1001 x ''; do unusable 'usage: collect ' collect --challenges "$number" $agreed examples/c/statements.bin; done
echo "agreed circuit and counted challenges: $passed runs as expected"
