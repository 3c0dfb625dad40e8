#!/usr/bin/env bash
# The C examples, run on the stored files and on damaged copies of them: what is drawn, verdicts, and what they show. Then tests/collect.sh.
# LOMVUZE_STATICLIB names another folder with libverdicts.a in it; nothing is proved then.
set -euo pipefail
. "$(dirname "$0")/common.sh"
. tests/c/stored.sh examples/c/{fold_batch,verify_batch,collect,own_points,decide_one,root}.c tests/c/{one_item,spoil}.c

# ---- Programs without a file, and how each is called
expect 0 "$(cat examples/c/own_points.expected)" own_points
shown_as own_points "$(cat examples/c/own_points.expected)"
expect 0 $'cast 0: accepted\ndecide 0: accepted\nthe item holds with the witness lent' decide_one
for program in fold_batch verify_batch collect root; do
    expect 0 "$("$folder/$program" --help)" $program --help
    [[ "$("$folder/$program" --help)" == "usage: $program "*'Exit status: 0 '* ]] || fail "$program --help"
    unusable "usage: $program " $program
done
for program in fold_batch verify_batch collect; do unusable "usage: $program " $program $agreed; done

# ---- fold_batch
expect 0 "$(cat examples/c/fold_batch.expected)" fold_batch $agreed examples/c/statements.bin
statements=$(lines '1,/^item 7: x/p')
damage statements.bin witness 0 0 0
after 1 "$statements
quotient 10: a root is not that of its witness
$none" fold_batch
damage statements.bin item 1 e 1
after 1 "$statements
item 1: e = 1, which is no fresh statement
$none" fold_batch
damage statements.bin item 3 r 0 0
after 1 "$statements
item 3: r is not the one that is drawn from its root and x
$none" fold_batch
damage statements.bin item 7 x 0 2
after 1 "${statements/'item 7: x = 1 '/'item 7: x = 2 '}
item 7, draw_r 13: an item's first input is not 1
$none" fold_batch
unusable 'cannot use examples/c/batch.bin: it does not start as statements do' fold_batch $agreed examples/c/batch.bin

# With t = 7 there are fewer than k = 8 different positions, and nothing is opened.
different() { lines '/^positions:/p' | cut -d' ' -f2-$(($1 + 1)) | tr ' ' '\n' | sort -u | wc -l; } # different T: of the first T that are drawn
positions() { # positions T: what is printed where T are drawn
    echo "draw_positions 0: accepted
$(lines '/^positions:/p' | cut -d' ' -f1-$(($1 + 1)))
different positions: $(different $1) of $1, and at least k = 8 have to be"
}
damage statements.bin size t 7
after 1 "${statements/t = 16/t = 7}
$(lines '/^quotient/,/^8 items/p')
$(positions 7)
$none" fold_batch

# ---- verify_batch
drawn="$circuit
$(lines '/^draw_challenge/,/^challenge/p')
$(positions 16)"
accepted="$drawn
$(lines '/^verify/,$p')"
expect 0 "$accepted" verify_batch $agreed examples/c/batch.bin
shown_as verify_batch "$accepted"
shown_as 'verify_batch on the changed batch' "$(sed -n '/^item 7: r/,/^refused/p' make/refusal.expected)"

# k = 8: an opening has one leaf, of one block, and log2(32) = 5 inner nodes, of two. There are 16 * 9 openings.
blocks() { echo "$1 of at most $((144 * 11)) SHA-256 blocks"; }

# What is not drawn from: challenge and positions stay.
damage batch.bin new_item x 0 2
after 1 "$drawn
verify 7: the new item is not the one of the challenge; $(blocks 0)
decide 13: an item's first input is not 1
$none" verify_batch
damage batch.bin opening 0 value 4294967295
after 1 "$drawn
verify 3: an element is p or more; $(blocks 0)
decide 0: accepted
$none" verify_batch
for opening in 0 1 8 9 71 143; do # an opening is hashed whole, and none behind it
    damage batch.bin opening $opening sibling 0 0
    after 1 "$drawn
verify 8: an opening does not lead to its root; $(blocks $((11 * (opening + 1))))
decide 0: accepted
$none" verify_batch
done
damage batch.bin new_witness 0 0
after 1 "$drawn
verify 0: accepted; $(blocks 1584)
decide 10: a root is not that of its witness
$none" verify_batch

# What is drawn from: other numbers are drawn, which are left out here.
redrawn() { # redrawn STATUS OUTPUT [CIRCUIT]: on the damaged file
    local got code
    got=$(${LOMVUZE_RUN:-} "$folder/verify_batch" "${3:-$agreed}" "$damaged" 2>/dev/null) && code=0 || code=$?
    [ "$code" = "$1" ] && [ "$(grep -v '^circuit: \|^challenge: \|^positions: \|^different positions: ' <<<"$got")" = "$2" ] ||
        fail "verify_batch: status $code, output:"$'\n'"$got"
    [ "$(grep '^challenge\|^positions' <<<"$got")" != "$(grep '^challenge\|^positions' <<<"$drawn")" ] || fail 'nothing else is drawn'
    passed=$((passed + 1))
}
other_item="draw_challenge 0: accepted
draw_positions 0: accepted
verify 7: the new item is not the one of the challenge; $(blocks 0)
decide 0: accepted
$none"
damage batch.bin item 0 e 1
redrawn 1 "item 0: e = 1, which is no fresh statement
$other_item"
for item in 0 1 2 3 4 5 6 7; do
    damage batch.bin item $item r 0 0
    redrawn 1 "item $item: r is not the one that is drawn from its root and x
$other_item"
    damage batch.bin item $item x 3 1 # its price: the drawn r is another one
    redrawn 1 "item $item: r is not the one that is drawn from its root and x
$other_item"
    damage batch.bin item $item x 0 2 # its first input: nothing is drawn
    after 1 "$circuit
item $item, draw_r 13: an item's first input is not 1
draw_challenge 13: an item's first input is not 1
$none" verify_batch
done
damage batch.bin quotient 0 0
redrawn 1 "$other_item"
damage batch.bin quotient 20 4294967295
after 1 "$circuit
draw_challenge 3: an element is p or more
$none" verify_batch
damage batch.bin new_item root 0 0 # other positions, for which these openings are not
redrawn 1 "draw_challenge 0: accepted
draw_positions 0: accepted
verify 8: an opening does not lead to its root; $(blocks 11)
decide 10: a root is not that of its witness
$none"

# The first t positions and their openings, which all lead to their roots: they are verified where at least k = 8 are different.
for t in $(seq 16); do
    damage batch.bin cut $t
    status=1 rest=$none
    if [ "$(different $t)" -ge 8 ]; then
        status=0 rest="verify 0: accepted; $((9 * 11 * t)) of at most $((9 * 11 * t)) SHA-256 blocks
$(lines '/^decide/,$p')"
    fi
    after $status "$circuit
$(lines '/^draw_challenge/,/^challenge/p')
$(positions $t)
$rest" verify_batch
done

# A batch of one item: with the drawn r and e = 0 it is accepted; with others both verdicts are 0 all the same.
both='draw_challenge 0: accepted
draw_positions 0: accepted
verify 0: accepted; 112 of at most 112 SHA-256 blocks
decide 0: accepted'
printf 'size\t1\t1\t2\n' >"$folder/one.circuit"
printf 'size\t1\t1\t2\nc\t0\t0\t1\n' >"$folder/one_e.circuit"
${LOMVUZE_RUN:-} "$folder/one_item" drawn "$damaged"
redrawn 0 "$both
accepted: one fold of item 0, the only one of the file
For l = 1 that is enough: the item holds with the witness that the opened values fix, or two different strings hashed here have one
SHA-256 digest." "$folder/one.circuit"
${LOMVUZE_RUN:-} "$folder/one_item" other_r "$damaged"
redrawn 1 "item 0: r is not the one that is drawn from its root and x
$both
$none" "$folder/one.circuit"
${LOMVUZE_RUN:-} "$folder/one_item" other_e "$damaged"
redrawn 1 "item 0: e = $("$folder/spoil" "$damaged" item 0 e), which is no fresh statement
$both
$none" "$folder/one_e.circuit"

# ---- Files that are no batches
damage batch.bin size m 7
unusable "cannot use $damaged: it is too short, or has a size that is not permitted" verify_batch $agreed "$damaged"
head -c 1000 examples/c/batch.bin >"$damaged"
unusable "cannot use $damaged: it is too short" verify_batch $agreed "$damaged"
{ cat examples/c/batch.bin; echo; } >"$damaged"
unusable "cannot use $damaged: it is too long" verify_batch $agreed "$damaged"

# Sizes and counts of a header with which a length would wrap.
for size in m n k l t a b c; do
    for number in 1073741824 1073741825 2147483648 4294967295; do
        damage statements.bin size $size $number
        unusable "cannot use $damaged" fold_batch $agreed "$damaged"
        damage batch.bin size $size $number
        unusable "cannot use $damaged" verify_batch $agreed "$damaged"
    done
    damage statements.bin size $size 0
    unusable "cannot use $damaged" fold_batch $agreed "$damaged"
    damage batch.bin size $size 0
    unusable "cannot use $damaged" verify_batch $agreed "$damaged"
done

# A part that is not there is changed in no file.
for part in 'item 8 e' 'item 0 x 4' 'entry a 7 row' 'opening 144 value' 'opening 0 sibling 5' 'quotient 21' 'witness 0 0' 'new_item root 8' 'size s' 'cut 17' ''; do
    ! "$folder/spoil" examples/c/batch.bin $part 0 2>/dev/null || fail "spoil finds $part"
    passed=$((passed + 1))
done
echo "C examples: $passed runs as expected"
bash tests/collect.sh
