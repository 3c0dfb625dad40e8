#!/usr/bin/env bash
# The definitions beside the reference: writes closed equations between what the definitions of crates/theory and crates/draw
# give and what the reference in rust/reference computes, and has the prover check each by computation. Run from anywhere; it
# needs rt and cargo. Fails if an equation is refused, if there are none, or if one with a wrong number is accepted. The equations are a crate of a copy
# of the repository, which stands elsewhere: rt ci takes no other crate here. No other run of rt comes between (make/alone.sh).
set -euo pipefail
. "$(dirname "$0")/common.sh"
[ "${LOMVUZE_ALONE:-}" = "$(pwd -P)" ] || exec bash make/alone.sh bash tests/agreement.sh
temporary

# The crates that draw stands on, and draw. rt takes what it proved of them here.
crates='draw'
while more=$(for crate in $crates; do echo "$crate"; sed -n "s/^$crate: *//p" crates.txt | tr ' ' '\n'; done | sort -u); [ "$more" != "$crates" ]; do crates=$more; done
for crate in $crates; do
    [ -d "crates/$crate" ] || continue # one of the toolchain's
    grep "^$crate:" crates.txt >>"$folder/crates.txt"
    for part in src specs proofs; do
        [ ! -d "crates/$crate/$part" ] || { mkdir -p "$folder/crates/$crate" && cp -R "crates/$crate/$part" "$folder/crates/$crate"; }
    done
done
echo "agreement: $(tr '\n' ' ' <<<"$crates")" >>"$folder/crates.txt"

# Says whether the prover accepts all equations of the crate.
log=target/agreement.log
mkdir -p target
proved() { (cd "$folder/crates/agreement" && rt check) >"$log" 2>&1 && grep -q '^logic=proved' "$log"; }

written=$folder/written
cargo run --quiet --release --offline --manifest-path rust/Cargo.toml -p lomvuze-agreement -- "$written" | tee "$folder/counts"
count=$(cat "$written"/specs/*.antt | grep -c '^pub equation-')
[ "$count" -ge 500 ] || fail "only $count equations"
[ "$count" = "$(sed -n 's/^equations\t//p' "$folder/counts")" ] || fail "$count equations were written"

# One number off by one must be refused.
own=$folder/crates/agreement
mkdir "$own"
cp -R "$written/src" "$own"
mkdir "$own/specs"
printf 'pub mod %s\n' Elements Inverses Weights >"$own/specs/Lib.antt"
cp "$written"/specs/{Elements,Inverses}.antt "$own/specs"
awk '!done && /^pub equation-/ { $NF = $NF + 1; done = 1 } { print }' "$written/specs/Weights.antt" >"$own/specs/Weights.antt"
if proved || ! grep -q 'equation-0' "$log"; then
    fail "a wrong number was not refused: $log"
fi

rm -r "$own/specs"
cp -R "$written/specs" "$own"
if ! proved; then
    grep -m 5 'error' "$log" | cut -c 1-400 >&2 || tail -n 5 "$log" >&2
    fail "not proved, see $log"
fi
echo "agreement: $count equations proved"
