#!/usr/bin/env bash
# Runs each fuzz target once on each of its seeds, without a fuzzer, and prints the call's verdict: it is the number that the seed's name starts
# with, and every verdict of the call is given; a call that takes points has seeds 0-built-in and 0-lent. Each call of rust/calls/calls.txt has a target
# and seeds. Then the controls: the targets must find the faults of fault.c. Needs cc and awk.
# LOMVUZE_STATICLIB names another folder with libverdicts.a in it; nothing is built there.
set -euo pipefail
cd "$(dirname "$0")/.."
if [ -z "${LOMVUZE_STATICLIB:-}" ]; then
    bash make/prove.sh staticlib verdicts
fi
library="${LOMVUZE_STATICLIB:-target/staticlib}/libverdicts.a"
folder=target/fuzz/replay
mkdir -p "$folder"
fail() { printf 'FAILED: %s\n' "$1"; exit 1; }

# ---- What rust/calls/calls.txt says of each call
bash make/calls.sh header >"$folder/calls.h"
calls=$(bash make/calls.sh names)
buffers=$(bash make/calls.sh buffers)
checks=$(bash make/calls.sh checks)
takes_points() { grep -q "^$1 reads [a-z_]* points$" <<<"$buffers"; }
writes() { grep -q "^$1 writes " <<<"$buffers"; }
runs() { grep -q "^$1 .*\b$2\b" <<<"$checks"; }          # runs CALL CHECK
behind() { grep -q "^$1 .*\b$2 .*\b$3\b" <<<"$checks"; } # behind CALL CHECK OTHER: the call runs the other check after this one
for call in $calls; do
    [ -e "fuzz/$call.c" ] || fail "there is no target fuzz/$call.c for lomvuze_$call: see fuzz/README.md"
    compgen -G "fuzz/corpus/$call/*" >/dev/null || fail "there is no seed in fuzz/corpus/$call: see fuzz/README.md"
done

# ---- A program for each call, without the faults and with them
flags=(-std=c11 -O1 -g -Wall -Wextra -Wpedantic -Werror -Iinclude -I"$folder")
checked=(-fsanitize=address,undefined -fno-sanitize-recover=undefined)
for part in target input points items drawn memory replay $calls; do
    cc "${flags[@]}" "${checked[@]}" -c -o "$folder/$part.o" "fuzz/$part.c"
done
cc "${flags[@]}" -c -o "$folder/fault.o" fuzz/fault.c
for call in $calls; do
    objects=("$folder"/{"$call",target,input,points,items,drawn,memory,replay}.o)
    cc "${checked[@]}" -o "$folder/$call" "${objects[@]}" "$library"
    cc "${checked[@]}" -o "$folder/$call.faulty" "${objects[@]}" "$folder/fault.o" "$library"
done

# ---- The seeds
seeds=0
for call in $calls; do
    if takes_points "$call"; then
        for seed in 0-built-in 0-lent; do [ -e "fuzz/corpus/$call/$seed" ] || fail "$call has no seed $seed"; done
    fi
    "$folder/$call" --every fuzz/corpus/"$call"/* >"$folder/$call.verdicts" || fail "$call"
    cat "$folder/$call.verdicts"
    while read -r file verdict; do
        name=${file##*/}
        [ "${name%%-*}" = "$verdict" ] || fail "$file: verdict $verdict"
        seeds=$((seeds + 1))
    done <"$folder/$call.verdicts"
done
[ "$seeds" -gt 0 ] || fail 'no seeds'

# ---- The controls
# Runs a target with a fault on a seed: it must end, and say the text.
control() {
    local call=$1 seed=$2 fault=$3 text=$4 log="$folder/control.log"
    export LOMVUZE_FAULT=$fault ASAN_OPTIONS=symbolize=0
    if { "$folder/$call.faulty" "$seed" >"$log" 2>&1; } 2>/dev/null || ! grep -qF "$text" "$log"; then
        fail "$seed: the fault $fault is not found, see $log"
    fi
    controls=$((controls + 1))
}
# The same with faults that drawing alone could have.
control_drawing() {
    local name=${2##*/}
    case $name in
        *-and-*) control "$1" "$2" exchanges-checks "FOUND: check ${name%%-*}" ;;&
        [!0]*) control "$1" "$2" accepts-and-writes 'FOUND: check' ;;
        *-empty) ;; # no number is drawn
        0*)
            control "$1" "$2" draws-another-number 'FOUND: another number'
            control "$1" "$2" draws-too-great-a-number 'FOUND: a number outside'
            [ "$1" = draw_challenge ] || return 0
            control "$1" "$2" draws-too-small-a-challenge 'FOUND: a number outside'
            control "$1" "$2" draws-another-seed 'FOUND: another seed'
            ;;
    esac
}
controls=0
for call in $calls; do
    LOMVUZE_FAULT='' "$folder/$call.faulty" fuzz/corpus/"$call"/* >/dev/null || fail "$call: found without a fault"
    writes=
    ! writes "$call" || writes=yes
    for seed in fuzz/corpus/"$call"/*; do
        name=${seed##*/}
        verdict=${name%%-*}
        accepted=
        [ "$verdict" != 0 ] || accepted=yes
        control "$call" "$seed" reads-behind-input 'AddressSanitizer: SEGV'
        control "$call" "$seed" reads-before-input 'AddressSanitizer: SEGV'
        control "$call" "$seed" writes-input 'FOUND: an input buffer was changed'
        control "$call" "$seed" answers-none 'FOUND: a verdict that is none'
        if [ "$accepted" ]; then
            control "$call" "$seed" refuses 'FOUND: '
            control "$call" "$seed" cuts-lengths 'FOUND: a length of 2^32 more'
        else
            control "$call" "$seed" accepts 'FOUND: '
            control "$call" "$seed" answers-in-turns 'FOUND: another answer'
        fi
        # Where 13 is the last check, overlooking it is to accept.
        if behind "$call" 13 '[0-9]*'; then
            if [ "$verdict" = 13 ]; then
                control "$call" "$seed" misses-first-inputs 'FOUND: check 13'
            elif behind "$call" 13 "$verdict"; then
                control "$call" "$seed" refuses-first-inputs 'FOUND: check 13'
            fi
        fi
        if runs "$call" 8; then # the call counts blocks
            if [[ $verdict = [08] ]] || behind "$call" 8 "$verdict"; then
                faults='counts-an-opening-more counts-a-block-less counts-no-blocks'
            else
                faults=counts-what-is-not-hashed
            fi
            case $name in
                8-last*) ;; # where the last opening fails, all are hashed
                8*) faults+=' counts-all-openings' ;;
            esac
            for fault in $faults; do control "$call" "$seed" $fault 'FOUND: blocks'; done
        fi
        if [[ $name = 0-built-in ]]; then
            control "$call" "$seed" "$([ "$writes" ] && echo writes-another-byte || echo refuses)" 'FOUND: the built-in points'
        fi
        if [ "$writes" ]; then
            control "$call" "$seed" writes-behind-output 'AddressSanitizer: SEGV'
            control "$call" "$seed" writes-before-output 'AddressSanitizer: SEGV'
        fi
        [[ $call != draw_* ]] || control_drawing "$call" "$seed"
        [[ $seed != *-empty ]] || continue # nothing is written
        if [ "$writes" ] && [ "$accepted" ]; then
            control "$call" "$seed" leaves-a-byte 'FOUND: other bytes'
            control "$call" "$seed" writes-another-byte 'FOUND: '
            [ "$call" != read_sheet ] || control "$call" "$seed" writes-beyond 'FOUND: bytes beyond'
        elif [ "$writes" ]; then
            control "$call" "$seed" writes-at-refusal 'FOUND: a refusal wrote'
        fi
    done
done
echo "fuzz targets: $seeds seeds with the verdicts expected; $controls faults found"
