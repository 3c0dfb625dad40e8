#!/usr/bin/env bash
# Valgrind must report nothing: on the programs that tests/c.sh runs, and on the edges of every call (rust/trials/src/edges), whose buffers
# are as long as they are said to be and no longer. On an error the exit status is 9, which no run expects; reports are left in
# target/valgrind. It needs valgrind, a C compiler and Rust, and is no part of the gate.
set -euo pipefail
. "$(dirname "$0")/common.sh"
needs valgrind
reports=$PWD/target/valgrind
rm -rf "$reports"
mkdir -p "$reports"

valgrind="valgrind --error-exitcode=9 --log-file=$reports/%p.log"
LOMVUZE_RUN="$valgrind --leak-check=full" bash tests/c.sh
# Without the search for leaks: Rust's test runner keeps memory to its end.
CARGO_TARGET_X86_64_UNKNOWN_LINUX_GNU_RUNNER=$valgrind \
    cargo test --release --offline --manifest-path rust/Cargo.toml -p lomvuze-verdicts --test edges
echo "valgrind: $(grep -l 'ERROR SUMMARY: 0 errors' "$reports"/*.log | wc -l) runs without an error"
