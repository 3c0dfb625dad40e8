#!/usr/bin/env bash
# Fuzzes the calls one after the other and prints a line for each.
#
#   fuzz/run.sh [SECONDS [CALL...]]
#
# By default each call of rust/calls/calls.txt gets 60 seconds. Needs clang with libFuzzer and AddressSanitizer, and cargo, by which honest calls of
# any size are added to the seeds. LOMVUZE_STATICLIB names another folder with libverdicts.a in it; nothing is built there.
# Exit status: 0 where nothing is found, 1 where something is, 2 for a call that is none.
set -euo pipefail
cd "$(dirname "$0")/.."
if [ -z "${LOMVUZE_STATICLIB:-}" ]; then
    bash make/prove.sh staticlib verdicts
fi
library="${LOMVUZE_STATICLIB:-target/staticlib}/libverdicts.a"
folder=target/fuzz
mkdir -p "$folder"
seconds=${1:-60}
calls=("${@:2}")
bash make/calls.sh header >"$folder/calls.h"
names=$(bash make/calls.sh names)
[ "${#calls[@]}" -gt 0 ] || mapfile -t calls <<<"$names"
for call in "${calls[@]}"; do
    [[ $'\n'$names$'\n' == *$'\n'"$call"$'\n'* ]] || { printf 'fuzz/run.sh: there is no call %s; the calls are: %s\n' "$call" "${names//$'\n'/ }" >&2; exit 2; }
done

cargo run --quiet --release --offline --manifest-path rust/Cargo.toml -p lomvuze-stored --bin corpus -- "$folder/seeds" 100

# Coverage of the targets themselves would say nothing about the library, so they have none; target.c tells libFuzzer what to keep.
checked=(-fsanitize=address,undefined -fno-sanitize-recover=undefined)
for part in target input points items drawn memory mutator "${calls[@]}"; do
    clang -std=c11 -O1 -g -Wall -Wextra -Wpedantic -Werror -Iinclude -I"$folder" "${checked[@]}" -c -o "$folder/$part.o" "fuzz/$part.c"
done

status=0
for call in "${calls[@]}"; do
    objects=("$folder"/{"$call",target,input,points,items,drawn,memory,mutator}.o)
    clang "${checked[@]}" -fsanitize=fuzzer -o "$folder/$call" "${objects[@]}" "$library"
    log="$folder/$call.log"
    seeds=("fuzz/corpus/$call" "$folder/seeds/$call")
    words=()
    [ ! -f "fuzz/$call.dict" ] || words=(-dict="fuzz/$call.dict")
    # Inputs that libFuzzer keeps go to the first folder. The longest seed, of the greatest sizes for verifying, has 603,000 bytes.
    rm -rf "$folder/kept/$call"
    mkdir -p "$folder/kept/$call"
    found=
    "$folder/$call" -max_total_time="$seconds" -max_len=1000000 -keep_seed=1 -timeout=10 -print_final_stats=1 \
        -artifact_prefix="$folder/$call-" "${words[@]}" "$folder/kept/$call" "${seeds[@]}" >"$log" 2>&1 || found=yes
    runs=$(sed -n 's/^stat::number_of_executed_units: *//p' "$log")
    rate=$(sed -n 's/^stat::average_exec_per_sec: *//p' "$log")
    printf '%-14s %9s runs, %6s a second; verdicts %s\n' "$call" "${runs:-?}" "${rate:-?}" "$(sed -n 's/^verdicts: //p' "$log")"
    if [ "$found" ]; then
        status=1
        printf 'FOUND by %s: %s\n' "$call" "$log"
        grep -E '^FOUND|^SUMMARY|^artifact_prefix|ERROR' "$log" || true
    fi
done
[ "$status" != 0 ] || echo 'nothing found'
exit "$status"
