#!/usr/bin/env bash
# Lists, for each edit in crates/*/must-fail, the place and the words of the first error with which the prover refused it, as rt says them:
#
#   tests/first-errors.sh [LOG]    LOG is what rt ci wrote; without it rt must-fail is run, over what rt check kept
#
# An edit is to be refused for a fact that fails, which a reader sees from the list. rt passes over errors in a proof file that names what the edit took
# away. This test fails where an edit was not refused, where it has no other error than these, and where the first one is in the words for a proof
# or a text that no longer fits the program, such as a record without a field: the edit has then changed the program's shape.
set -euo pipefail
. "$(dirname "$0")/common.sh"
temporary
unfit='that can be named|has no field|has no `|not in scope|was not admitted|no occurrence|is no name|operand is missing|expected the end|cannot continue'
refusal='refused, as it must be'

# What rt says of each edit: a line each.
said=${1:-$folder/said}
[ -n "${1:-}" ] || bash make/alone.sh rt must-fail >"$said" || true
of() { grep -am 1 "^rt: must-fail $1\\.edit: " "$2" | sed 's/^rt: must-fail [^:]*: //' || true; }

# Why what rt says of an edit shows nothing of a contract, if that is so.
why() { # why TEXT
    case $1 in
    '') echo 'it was not tried' ;;
    "$refusal (only because a proof file names"*) echo 'only proof files name what it took away' ;;
    "$refusal (only by a limit"*) ;;
    "$refusal: "*) ! grep -aqE "$unfit" <<<"$1" || echo "its proof no longer fits: $(grep -am 1 -oE "$unfit" <<<"$1")" ;;
    *) echo 'it was not refused' ;;
    esac
}

# ---- The words are found as rt writes them.
printf 'rt: must-fail a/%s\n' "b.edit: $refusal: note: src/lib.rt:7:1: it is not proved that what the function ensures holds" \
    "c.edit: $refusal: proofs/f/Answers.antt:8:13: error: a module has no \`returns\`" 'd.edit: BAD EDIT: it changes nothing' \
    "e.edit: NOT REFUSED: the crate is still proved" "f.edit: $refusal (only because a proof file names what the edit took away): x" >"$folder/control"
[ -z "$(why "$(of a/b "$folder/control")")" ] || fail 'control: a fact that fails is taken for a proof that no longer fits'
for name in c d e f g; do [ -n "$(why "$(of a/$name "$folder/control")")" ] || fail "control: a/$name is passed"; done

count=0
failed=0
limits=0
for edit in crates/*/must-fail/*.edit; do
    name=$(cut -d/ -f2 <<<"$edit")/$(basename "$edit" .edit)
    text=$(of "$name" "$said")
    printf '%s\t%s\n' "$name" "${text#"$refusal: "}"
    [[ $text != *'(only by a limit'* ]] || limits=$((limits + 1))
    reason=$(why "$text")
    [ -z "$reason" ] || { echo "FAILED: $name: $reason"; failed=$((failed + 1)); }
    count=$((count + 1))
done
[ "$failed" = 0 ] || exit 1
echo "first errors: $count edits, none refused in the words for a proof that no longer fits, and $limits by a limit of the prover alone"
