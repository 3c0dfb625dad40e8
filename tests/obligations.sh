#!/usr/bin/env bash
# What goes wrong where a clearing house does not see to its obligations: builds examples/c/obligations and runs it, for all and for each one. The
# program fails where a count is not what it must be; what it prints is as stored, and the table is the one in docs/OBLIGATIONS.md. LOMVUZE_STATICLIB names
# another folder with libverdicts.a in it; nothing is built there. The program is run by the command that LOMVUZE_RUN gives, if any.
set -euo pipefail
. "$(dirname "$0")/common.sh"
libraries verdicts
library=$staticlib/libverdicts.a
sources=examples/c/obligations
temporary

cc -std=c11 -O2 -Wall -Wextra -Wpedantic -Wconversion -Wsign-conversion -Werror -Iinclude -o "$folder/obligations" "$sources"/*.c "$library"

# Runs the program and keeps what it prints.
run() {
    local output=$1
    shift
    ${LOMVUZE_RUN:-} "$folder/obligations" "$@" >>"$folder/$output" || {
        echo "FAILED: obligations $*: status $?, output:"
        cat "$folder/$output"
        exit 1
    }
}
run table
for number in 1 2 3 4 5 6 7; do
    run words "$number"
    echo >>"$folder/words"
done
for output in table words; do
    diff -u "$sources/$output.expected" "$folder/$output" || { echo "FAILED: obligations prints another $output"; exit 1; }
done
[[ "$(cat docs/OBLIGATIONS.md)" == *"$(cat "$sources/table.expected")"* ]] || { echo "FAILED: docs/OBLIGATIONS.md has another table"; exit 1; }

[[ "$("$folder/obligations" --help)" == 'usage: obligations [N]'* ]] || { echo 'FAILED: obligations --help'; exit 1; }

# Other arguments are refused.
for arguments in 0 8 x '1 2'; do
    "$folder/obligations" $arguments >"$folder/none" 2>&1 && status=0 || status=$?
    [ "$status" = 2 ] || { echo "FAILED: obligations $arguments: status $status"; exit 1; }
done
echo "obligations: $(grep -c '^| [1-7]' "$sources/table.expected") runs with and without, as expected"
