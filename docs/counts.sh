#!/usr/bin/env bash
# The lines of every crate, comments included: source, definitions and proofs; and its wrong programs. The columns of the tables in docs/landings.
set -euo pipefail
cd "$(dirname "$0")/.."
lines() { { find "$@" -type f 2>/dev/null || true; } | xargs -r cat | wc -l; }
edits() { { find "$@" -name '*.edit' 2>/dev/null || true; } | wc -l; }
all=(0 0 0 0)
for crate in $(sed -n 's/^\([a-z0-9_]*\)\( staticlib\)\{0,1\}:.*/\1/p' crates.txt); do
    folder=crates/$crate
    row=("$(lines $folder/src -name '*.rt')" "$(lines $folder/specs -name '*.antt')" "$(lines $folder/proofs -name '*.antt')"
        "$(edits $folder/must-fail)")
    echo "| \`$crate\` | ${row[0]} | ${row[1]} | ${row[2]} | ${row[3]} |"
    for i in 0 1 2 3; do all[i]=$((all[i] + row[i])); done
done
echo "| all | ${all[0]} | ${all[1]} | ${all[2]} | ${all[3]} |"
