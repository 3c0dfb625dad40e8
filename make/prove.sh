#!/usr/bin/env bash
# Proves a crate and those that it stands on, and prints a line for each as it is proved, with the seconds since the start. All that rt writes goes to
# target/prove-NAME.log; where something is not proved, its first errors and last lines are shown. No other run of rt comes between (make/alone.sh).
#
#   make/prove.sh staticlib NAME    a library: writes target/staticlib/libNAME.a
#   make/prove.sh check NAME        a program: writes target/bin/NAME, and runs it on its stored input
#
# Exit status: 0, that of rt, 1 where a program writes something else than crates/NAME/stdout, or 2 where rt is not there.
set -euo pipefail
cd "$(dirname "$0")/.."
[ "${LOMVUZE_ALONE:-}" = "$(pwd -P)" ] || exec bash make/alone.sh bash make/prove.sh "$@"
kind=$1 name=$2
log=$PWD/target/prove-$name.log
expected=$(cat toolchain.txt)
# A crate is a library for other crates or a static library: the calls have a crate of each kind.
crate=$name
[ "$kind $name" != 'staticlib verdicts' ] || crate=verdicts_c

if ! command -v rt >/dev/null; then
    echo "The Rattle toolchain, which proves and compiles the library, is missing: there is no rt on PATH." >&2
    echo "The version that is expected, as rt version prints it: $expected" >&2
    exit 2
fi
found=$(rt version 2>&1) || true
if [ "$found" != "$expected" ]; then
    echo "warning: rt version prints '$found', and '$expected' is expected; going on" >&2
fi

# How many crates of this repository the crate stands on, itself counted.
total=$(awk -F: -v name="$crate" '
    function visit(n,    i, count, parts) {
        if (!(n in below) || n in seen) return
        seen[n] = 1
        count = split(below[n], parts, " ")
        for (i = 1; i <= count; i++) visit(parts[i])
        number++
    }
    !/^#/ { split($1, words, " "); below[words[1]] = $2 }
    END { visit(name); print number + 0 }' crates.txt)

# As many crates at a time as there are processors, and as memory holds at 3 GB each.
lanes() {
    local processors memory
    processors=$(nproc)
    memory=$(awk '$1 == "MemAvailable:" { print int($2 / 3000000) }' /proc/meminfo)
    echo $((memory < 1 ? 1 : memory < processors ? memory : processors))
}

# Reads what rt writes, and prints a line for each crate that it says is proved. A crate's lines stand behind `== NAME`; it has none of its own where
# nothing has changed.
progress() {
    local line current='' count=0
    say() {
        count=$((count + 1))
        printf '%3d of %d  %-11s %s\n' "$count" "$total" "$current" "$1"
        current=
    }
    while IFS= read -r line; do
        case $line in
        '== '*)
            [ -z "$current" ] || say unchanged
            current=${line#== }
            [ "$current" != summary ] || current=
            ;;
        logic=proved*) [ -z "$current" ] || say "$SECONDS s" ;;
        'rt: '*) ;;
        logic=* | *': error'* | *': not proved'*) current= ;;
        esac
    done
}

fail() {
    printf 'not proved; the first errors and the last lines of %s:\n' "${log#"$PWD/"}" >&2
    grep -am 10 -E ': error|it is not proved|NOT PROVED' "$log" >&2 || true
    tail -n 20 "$log" >&2
    exit "$1"
}

mkdir -p target/staticlib target/bin
: >"$log"
echo "proving $name: $total crates, many minutes where none is proved yet; what the prover writes goes to ${log#"$PWD/"}"
(cd "crates/$crate" && rt all check --jobs "$(lanes)") 2>&1 | tee "$log" | progress || fail $?
case $kind in
staticlib)
    (cd "crates/$crate" && rt lib) >>"$log" 2>&1 || fail $?
    made=crates/$crate/out/lib$crate.a to=target/staticlib/lib$name.a
    ;;
check)
    input=/dev/null
    [ ! -e "crates/$crate/stdin" ] || input=$PWD/crates/$crate/stdin
    (cd "crates/$crate" && rt run <"$input" 2>>"$log") >"target/$name.out" || fail $?
    cmp "target/$name.out" "crates/$crate/stdout" >&2 || { echo "$name writes something else than crates/$crate/stdout: target/$name.out" >&2; exit 1; }
    made=crates/$crate/out/$crate to=target/bin/$name
    ;;
esac
cp "$made" "$to.part"
mv "$to.part" "$to"
echo "proved in $SECONDS s"
