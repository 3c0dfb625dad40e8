#!/usr/bin/env bash
# The header's answers, the texts of lomvuze_strerror and those in the man pages agree, and so do the versions of the header and of the Rust crates that are
# published with it; CHANGES.md has a section for that version. Then the controls. tests/calls.sh is about the calls.
set -euo pipefail
. "$(dirname "$0")/common.sh"
header=include/lomvuze.h
temporary

# ---- Answers: the header's, those of lomvuze_strerror, and those of the man pages
texts=$(sed -n 's/.*case \(LOMVUZE_[A-Z_]*\): return "\(.*\)";/\1 \2/p' c/lomvuze.c)
names=$(sed -n '/^enum lomvuze_answer/,/^}/s/^ *\(LOMVUZE_[A-Z_]*\) = \([0-9]*\),*$/\1/p' $header)
[ -n "$names" ] && [ "$(cut -d' ' -f1 <<<"$texts")" = "$names" ] || fail 'lomvuze_strerror has other answers than the header'
listed() { awk '/^\.It [0-9]+$/ { getline; print }' "$1"; }
[ "$(listed docs/man/lomvuze.3)" = "$(cut -d' ' -f2- <<<"$texts")" ] || fail 'lomvuze.3 has other answers'
[ "$(listed docs/man/claims.1)" = "$(cut -d' ' -f2- <<<"$texts" | sed -n '2,5p;14p')" ] || fail 'claims.1 has other answers'

# ---- Versions
number() { sed -n "s/^#define LOMVUZE_VERSION_$1 //p" $header; }
version="$(number MAJOR).$(number MINOR).$(number PATCH)"
version_of() { sed -n 's/^version = "\(.*\)"/\1/p' "$1"; }
grep -qx "## $version" CHANGES.md || fail "CHANGES.md has no section for version $version"
for crate in lomvuze verdicts calls; do
    [ "$(version_of rust/$crate/Cargo.toml)" = "$version" ] || fail "rust/$crate/Cargo.toml has another version than the header, $version"
done

# ---- The controls
sed '0,/^accepted$/s//allowed/' docs/man/lomvuze.3 >"$folder/man"
[ "$(listed "$folder/man")" != "$(cut -d' ' -f2- <<<"$texts")" ] || fail 'another text in the man page is not noticed'
sed 's/^version = ".*"/version = "0.0.0"/' rust/calls/Cargo.toml >"$folder/toml"
[ "$(version_of "$folder/toml")" != "$version" ] || fail 'another version is not noticed'
echo "header: $(wc -l <<<"$names") answers and version $version agree"
