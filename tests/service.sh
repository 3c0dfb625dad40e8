#!/usr/bin/env bash
# A Rust service and the installed library: installs into a temporary folder, packs the crate as cargo does, and builds the program of its page
# against what pkg-config finds, outside the checkout; and a program without the standard library. Then what the build says where no library is found.
# LOMVUZE_STATICLIB and LOMVUZE_BIN name other folders with libverdicts.a and with the program claims in them; nothing is built there.
set -euo pipefail
. "$(dirname "$0")/common.sh"
temporary

prefix="$folder/a prefix"
make -s install PREFIX="$prefix"
cargo package --quiet --offline --no-verify --allow-dirty --manifest-path rust/Cargo.toml -p lomvuze-calls -p lomvuze-verdicts -p lomvuze \
    --target-dir "$folder/packed" 2>"$folder/log" || fail "cargo package: $(cat "$folder/log")"
for packed in "$folder"/packed/package/*.crate; do tar -xzf "$packed" -C "$folder"; done

mkdir -p "$folder/service/src/bin"
sed -n '/^```rust$/,/^```$/p' rust/lomvuze/README.md | sed '1d;$d' >"$folder/service/src/main.rs"
cp tests/service/without_std.rs "$folder/service/src/bin"
cat >"$folder/service/Cargo.toml" <<END
[package]
name = "service"
version = "0.1.0"
edition = "2021"

[dependencies]
lomvuze = { path = "$(echo "$folder"/lomvuze-[0-9]*)" }

[patch.crates-io]
lomvuze-calls = { path = "$(echo "$folder"/lomvuze-calls-*)" }
lomvuze-verdicts = { path = "$(echo "$folder"/lomvuze-verdicts-*)" }

# Without the standard library nothing unwinds; lto compiles the crate alloc for that too.
[profile.release]
panic = "abort"
lto = true
END

# Builds the service, as the arguments behind the first ask for. pkg-config looks in the folder that the first names, and nowhere else.
unset LOMVUZE_STATICLIB PKG_CONFIG_PATH
build() { (cd "$folder/service" && PKG_CONFIG_LIBDIR=$1 cargo build --quiet --offline "${@:2}" --target-dir "$folder/target") >"$folder/log" 2>&1; }
# It must fail, and say each of the texts.
refused() {
    ! build "$1" --bin service || fail "the service is built: $1"
    for text in "${@:2}"; do grep -qF -- "$text" "$folder/log" || fail "the build does not say '$text': $(cat "$folder/log")"; done
}

build "$prefix/lib/pkgconfig" --bin service || fail "the service is not built: $(cat "$folder/log")"
build "$prefix/lib/pkgconfig" --release --bin without_std || fail "the program without the standard library is not built: $(cat "$folder/log")"
mv "$prefix" "$folder/away" # what was linked is the static library
"$folder/target/debug/service" || fail 'the service is refused'
"$folder/target/release/without_std" || fail 'the program without the standard library ends with another status'

refused "$prefix" 'LOMVUZE_STATICLIB names' 'target/staticlib/libverdicts.a' 'PKG_CONFIG_PATH' 'lomvuze'
mkdir "$prefix"
sed 's/^Version:.*/Version: 0.0.9/' "$folder/away/lib/pkgconfig/lomvuze.pc" >"$prefix/lomvuze.pc"
refused "$prefix" '0.0.9'
LOMVUZE_STATICLIB=$prefix refused "$folder/away/lib/pkgconfig" "LOMVUZE_STATICLIB names $prefix, and libverdicts.a is not there"
echo 'service: built with the installed library, and without the standard one; three builds refused in words'
