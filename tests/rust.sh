#!/usr/bin/env bash
# Builds the exported calls and the layers below them as static libraries and runs the Rust tests: the independent implementation against
# the standards' vectors and the paper's cases, the proved library against it, and the crate for Rust services, with its examples and its pages. The
# proved transform may take at most twice as long as the same in plain Rust, and the test of lent points at most a tenth of encoding over them.
# LOMVUZE_STATICLIB names another folder with both libraries in it; nothing is built there.
set -euo pipefail
. "$(dirname "$0")/common.sh"
libraries harness verdicts
cargo test --release --offline --manifest-path rust/Cargo.toml

# ---- 10,000 codewords: the last line says how long the proved transform takes beside plain Rust
table=$(cargo run --quiet --release --offline --manifest-path rust/Cargo.toml -p bench --bin codewords) || { printf '%s\n' "$table"; exit 1; }
tail -n 1 <<<"$table"

# ---- The test of lent points beside encoding over them
cargo run --quiet --release --offline --manifest-path rust/Cargo.toml -p bench --bin points

# ---- The examples of the crate
bash tests/rust-examples.sh

# ---- The crate's pages: no warning, and each link leads to a page
RUSTDOCFLAGS='-D warnings' cargo doc --quiet --no-deps --offline --manifest-path rust/Cargo.toml -p lomvuze
pages=0 links=0
while IFS= read -r page; do
    pages=$((pages + 1))
    while IFS= read -r link; do
        [ -e "${page%/*}/$link" ] || { echo "FAILED: a dead link: $link in $page"; exit 1; }
        links=$((links + 1))
    done < <(grep -o 'href="[^"]*' "$page" | sed 's/^href="//; s/#.*//; /:/d; /[$]/d; /^$/d' | sort -u)
done < <(find rust/target/doc/lomvuze -name '*.html')
echo "pages of the crate: $links links on $pages pages lead somewhere"
