#!/usr/bin/env bash
# `make demo`: its output on the library that is there; and, in a copy of the repository with nothing built, what it says where a tool is missing,
# where rt is another version, while a stand-in for rt proves, and where a proof fails. LOMVUZE_STATICLIB names another folder with libverdicts.a in it.
set -euo pipefail
. "$(dirname "$0")/common.sh"
if [ -z "${LOMVUZE_STATICLIB:-}" ]; then
    make -s
fi
library=$(realpath "$staticlib/libverdicts.a")
temporary
program_output=$folder/out

expected=$(cat examples/c/fold_batch.expected make/refusal.expected)
make -s demo >"$folder/out"
[ "$(cat "$folder/out")" = "$expected" ] || fail 'make demo'
passed=$((passed + 1))

# A copy with nothing built and nothing to prove, and the programs of this machine without rt and cc.
mkdir -p "$folder/tools" "$folder/copy/crates/verdicts_c"
cp -R $(ls -A | grep -vxE 'target|crates|rust|\.git') "$folder/copy"
for path in ${PATH//:/ }; do
    ln -s -t "$folder/tools" "$path"/* 2>/dev/null || true
done
cc=$(command -v cc)
rm -f "$folder/tools/rt" "$folder/tools/cc"

# Runs `make demo` in the copy: its exit status and a text in its output are as expected. A call without a text leaves the output to look at.
demo() { # demo STATUS NAME TEXT...
    local status=0 text
    (cd "$folder/copy" && rm -rf target && env -u LOMVUZE_STATICLIB -u LOMVUZE_BIN PATH="$folder/tools" make -s demo) >"$folder/out" 2>&1 || status=$?
    [ "$status" = "$1" ] || fail "$2: status $status"
    for text in "${@:3}"; do
        grep -qF -- "$text" "$folder/out" || fail "$2: it does not say: $text"
    done
    passed=$((passed + 1))
}
stand_in() { # stand_in VERSION COMMANDS: an rt that prints the version, and runs the commands for `all` and `lib`
    printf '#!/bin/sh\nif [ "$1" = version ]; then echo "%s"; exit; fi\n%s\n' "$1" "$2" >"$folder/tools/rt"
    chmod 755 "$folder/tools/rt"
}
version=$(cat toolchain.txt)
# What the calls stand on, lowest first as far as it matters here; the lowest is unchanged.
crates=verdicts_c
while more=$(for crate in $crates; do
    echo "$crate $crate"
    for below in $(sed -n "s/^$crate\( staticlib\)\{0,1\}: *//p" crates.txt); do [ ! -d "crates/$below" ] || echo "$below $crate"; done
done | tsort | xargs); [ "$(wc -w <<<"$more")" != "$(wc -w <<<"$crates")" ]; do crates=$more; done
proves='case $1 in
all)
    echo "== algebra"
    for crate in '${more#algebra }'; do printf "== %s\\nfn %s::error: proved\\nlogic=proved functions=1\\n" $crate $crate; done
    printf "== summary\\nalgebra: ok\\n" ;;
lib) mkdir -p out && cp '"'$library'"' out/libverdicts_c.a ;;
esac'

stand_in "$version" 'echo called >&2'
demo 2 'without cc' 'A C compiler is missing: there is no cc on PATH'
! grep -q called "$folder/out" || fail 'without cc: rt is run'
ln -s "$cc" "$folder/tools/cc"

rm "$folder/tools/rt"
demo 2 'without rt' 'there is no rt on PATH' "$version"
! grep -q 'not found' "$folder/out" || fail "without rt: the shell's error"

total=$(wc -w <<<"$more")
stand_in "$version" "$proves"
mv "$folder/tools/flock" "$folder/flock"
demo 2 'without flock' 'flock, which keeps two runs of rt apart, is missing'
mv "$folder/flock" "$folder/tools/flock"
demo 0 'proving' 'target/prove-verdicts.log' "  1 of $total  algebra     unchanged" 'decide 0: accepted'
! grep -q warning "$folder/out" || fail 'proving: a warning'
[ "$(tail -n +"$(($(grep -n '^proved in' "$folder/out" | cut -d: -f1) + 1))" "$folder/out")" = "$expected" ] || fail 'proving: another demo'
lines=$(grep -cE '^ *[0-9]+ of [0-9]+  [a-z0-9_]+ +([0-9]+ s|unchanged)$' "$folder/out")
last=$(grep -E '^ *[0-9]+ of ' "$folder/out" | tail -n 1)
[[ $last =~ ^\ *$total\ of\ $total\ \ verdicts_c ]] && [ "$lines" = "$total" ] || fail "proving: $lines lines, the last one: $last"
grep -q '^fn hash::error: proved$' "$folder/copy/target/prove-verdicts.log" || fail "proving: the log lacks rt's lines"

stand_in 'another version' "$proves"
demo 0 'another version' "warning: rt version prints 'another version', and '$version' is expected" 'decide 0: accepted'

stand_in "$version" 'printf "== algebra\nlogic=proved\n== hash\nAnswers.antt:1:1: error\nlogic=not-proved\n== summary\nhash: failed (1)\n"; seq 30; exit 1'
demo 2 'a proof that fails' '  1 of ' 'the last lines of target/prove-verdicts.log' 'Answers.antt:1:1: error'
! grep -q ' 2 of ' "$folder/out" || fail 'a proof that fails: its crate is said to be proved'
! grep -q 'accepted' "$folder/out" || fail 'a proof that fails: the demo goes on'
echo "demo: $passed runs as expected"
