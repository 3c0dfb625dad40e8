# What the tests share. A test sources it at its start, behind `set -euo pipefail`, and is then at the repository's root.
cd "$(dirname "${BASH_SOURCE[0]}")/.."

# Where the static libraries are: LOMVUZE_STATICLIB names another folder with them, and nothing is built there.
staticlib=${LOMVUZE_STATICLIB:-target/staticlib}
# How many cases passed, for a test's last line.
passed=0

# Ends a test: says what is wrong and, where $program_output names a file, what a program printed.
fail() {
    printf 'FAILED: %s\n' "$1"
    [ ! -e "${program_output:-}" ] || sed "1i output:" "$program_output"
    exit 1
}

# Each of these programs is on PATH.
needs() {
    local program
    for program; do command -v "$program" >/dev/null || fail "there is no $program on PATH"; done
}

# Makes $folder, which is removed when the test ends.
temporary() {
    folder=$(mktemp -d)
    trap 'rm -rf "$folder"' EXIT
}

# Proves these crates and writes their static libraries, unless LOMVUZE_STATICLIB is set.
libraries() {
    local name
    [ -z "${LOMVUZE_STATICLIB:-}" ] || return 0
    for name; do bash make/prove.sh staticlib "$name"; done
}

# The indented blocks of a page, each with a zero byte behind it.
blocks_of() { # blocks_of PAGE
    awk '
        /^    / { sub(/^ +/, ""); block = block (block == "" ? "" : "\n") $0; next }
        block != "" { printf "%s%c", block, 0; block = "" }' "$1"
}

# A page has a text as it stands; counts what was found in $shown.
shown=0
shows() { # shows PAGE TEXT WHAT
    [ -n "$2" ] && [[ "$(cat "$1")" == *"$2"* ]] || fail "$1 has another $3"
    shown=$((shown + 1))
}
