#!/usr/bin/env bash
# No two runs of rt share a checkout: commands that make/alone.sh runs do not overlap, whichever way they are started, and nothing in the repository runs
# rt there without it. In a copy with nothing to prove and a stand-in for rt, which notes when it starts and ends. It takes seconds.
set -euo pipefail
. "$(dirname "$0")/common.sh"
unset LOMVUZE_STATICLIB LOMVUZE_BIN LOMVUZE_ALONE
temporary

mkdir -p "$folder/tools" "$folder"/copy/crates/{claims,harness,verdicts_c}
: >"$folder/copy/crates/claims/stdout"
cp -R make Makefile crates.txt toolchain.txt include "$folder/copy"
cat >"$folder/tools/rt" <<'END'
#!/bin/sh
[ "$1" != version ] || exec cat toolchain.txt
echo start >>"$NOTES"
until [ "$(grep -c start "$NOTES")" -ge "${BESIDE:-1}" ]; do sleep 0.1; done
sleep 0.1
mkdir -p out
case $1 in
run) : >"out/${PWD##*/}" ;;
lib) : >"out/lib${PWD##*/}.a" ;;
esac
echo end >>"$NOTES"
END
chmod 755 "$folder/tools/rt"
export PATH="$folder/tools:$PATH" NOTES="$folder/notes"
cd "$folder/copy"

# How many runs overlapped another one. A run that overlaps none notes its end behind its start.
overlaps() { awk '$1 == "start" && open++ { n++ } $1 == "end" { open-- } END { print n + 0 }' "$NOTES"; }
# The last command started so many runs, of which none overlapped another.
apart() { # apart RUNS WHAT
    local runs
    runs=$(grep -c start "$NOTES")
    [ "$runs" = "$1" ] && [ "$(overlaps)" = 0 ] || fail "$2: $runs runs of rt, $(overlaps) of them beside another"
    passed=$((passed + 1))
    rm "$NOTES"
}

# Waits up to a minute for a command to succeed.
soon() { for _ in $(seq 600); do ! "$@" || return 0; sleep 0.1; done; fail "it does not happen: $*"; }

# The control: without the lock each of three runs waits for the others to start.
for _ in 1 2 3; do BESIDE=3 timeout 60 rt check claims & done
wait
[ "$(overlaps)" = 2 ] || fail 'control: three runs that wait for each other do not overlap'
rm "$NOTES"

# While a command holds the lock, three others say that they wait, and run nothing. Then they run one after the other.
bash make/alone.sh sh -c 'touch "$0/held"; until [ -e "$0/go" ]; do sleep 0.1; done' "$folder" &
soon test -e "$folder/held"
for _ in 1 2 3; do bash make/alone.sh rt check claims & done 2>"$folder/said"
all_wait() { [ "$(grep -cFx "waiting for another run of rt in $(pwd -P)" "$folder/said")" = 3 ]; }
soon all_wait
[ ! -e "$NOTES" ] || fail 'rt runs beside a command that holds the lock'
touch "$folder/go"
wait
apart 3 'three commands'

# Of several targets, and of two makes. Each takes two runs of rt: all check, and then lib or run.
targets=(target/bin/claims target/staticlib/libharness.a target/staticlib/libverdicts.a)
rm -rf target
make -s -j4 "${targets[@]}" >"$folder/said" 2>&1 || fail "make -j4: $(cat "$folder/said")"
apart 6 'make -j4'
rm -rf target
make -s claims >"$folder/said" 2>&1 & first=$!
make -s "${targets[@]:1}" >"$folder/said.too" 2>&1 || fail "two makes: $(cat "$folder/said.too")"
wait $first || fail "two makes: $(cat "$folder/said")"
apart 6 'two makes'

# What a command leaves running still holds the lock, as where rt is killed and its provers are not.
bash make/alone.sh sh -c 'rt check claims &'
bash make/alone.sh rt check claims 2>/dev/null
apart 2 'a run that is left behind'

# The exit status is the command's; a command within a command, and no flock, are refused.
ends() { # ends STATUS TEXT COMMAND...
    local status=0
    "${@:3}" >"$folder/said" 2>&1 || status=$?
    [ "$status" = "$1" ] && grep -qF -- "$2" "$folder/said" || fail "${*:3}: status $status, and it says: $(cat "$folder/said")"
    passed=$((passed + 1))
}
ends 7 '' bash make/alone.sh sh -c 'echo; exit 7'
ends 2 'is called by a command that it runs' bash make/alone.sh sh -c 'bash make/alone.sh rt check claims || exit $?'
mkdir "$folder/few"
ln -s "$(command -v bash)" "$(command -v dirname)" "$folder/few"
ends 2 'flock, which keeps two runs of rt apart, is missing' env PATH="$folder/few" bash make/alone.sh rt check claims
[ ! -e "$NOTES" ] || fail 'what is refused runs rt'

# No script starts rt in the checkout in another way, but those that start themselves anew under the lock.
cd "$OLDPWD"
for file in Makefile .ci/run {make,tests,fuzz,docs}/*.sh; do
    [ "$file" != tests/alone.sh ] && ! grep -q "exec bash make/alone.sh bash $file" "$file" || continue
    line=$(grep -nE '(^|[;&|({@]|if|then|do|else|!|time)[[:space:]]*rt (ci|check|all|lib|run|test|tidy|verdict|must-fail|plant)' "$file" || true)
    [ -z "$line" ] || fail "$file runs rt without make/alone.sh: $line"
    passed=$((passed + 1))
done
echo "alone: $passed cases; no two runs of rt overlap"
