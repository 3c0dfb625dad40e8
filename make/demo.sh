#!/usr/bin/env bash
# What `make demo` shows: a chain of calls that is accepted, and a fold that is refused. The programs are in target.
set -euo pipefail
cd "$(dirname "$0")/.."
agreed=examples/c/agreed.circuit
target/fold_batch $agreed examples/c/statements.bin

# x is 1, total, payment and price.
changed=target/changed.bin
cp examples/c/batch.bin $changed
target/spoil $changed item 7 x 2 232801

cat <<'END'

The stored fold of these items, with one number changed on the way: item 7 says payment 232801 for 232800.
END
status=0
target/verify_batch $agreed $changed || status=$?
[ "$status" = 1 ] || { echo "verify_batch ended with status $status, where a refusal is 1" >&2; exit 1; }
cat <<'END'
With the changed item other numbers are drawn: its r, the challenge and the positions. 7 says that the new item is not the one that these items,
quotient and challenge give: it is found before an opening is hashed. Deciding sees the new item alone, which nobody changed, and so answers 0: a
fold is accepted where both verdicts are 0.
END
