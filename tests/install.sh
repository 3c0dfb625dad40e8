#!/usr/bin/env bash
# What `make install` puts in place: installs into a temporary folder whose name has a space, builds the installed examples and a C++ program with
# what pkg-config gives alone, with the shared library and with the archive, and runs them and the installed programs on stored input; looks at what
# the shared library exports, at documents and man pages; and removes all again. LOMVUZE_STATICLIB and LOMVUZE_BIN name other folders with
# libverdicts.a and with the program in them; nothing is proved then. Needs C and C++ compilers, Rust, pkg-config, binutils, man and groff.
set -euo pipefail
. "$(dirname "$0")/common.sh"
temporary
needs pkg-config readelf man groff cargo
to="$folder/a prefix"
examples="$to/share/doc/lomvuze/examples"
export PKG_CONFIG_LIBDIR="$to/lib/pkgconfig"

make -s install PREFIX="$to"
version=$(pkg-config --modversion lomvuze)
soname=liblomvuze.so.${version%.*}

# ---- Programs over the installed files alone. Flags of a path with a space are quoted for a shell.
build() { # build COMPILER FLAGS KIND NAME SOURCE
    eval "$1 $2 -O2 -o '$folder/$4' \"$5\" $(pkg-config --cflags lomvuze) $(flags_of "$3")"
}
flags_of() {
    case $1 in
        shared) pkg-config --libs lomvuze ;;
        static) echo "-static $(pkg-config --static --libs lomvuze)" ;;
        archive) echo "'$(pkg-config --variable=archive lomvuze)'" ;;
    esac
}
for kind in shared static archive; do
    for program in fold_batch collect decide_one; do build cc -std=c11 $kind $program.$kind "$examples/c/$program.c"; done
    build c++ -std=c++11 $kind containers.$kind tests/c/containers.cc
    [ $kind != shared ] || export LD_LIBRARY_PATH="$to/lib"
    "$folder/fold_batch.$kind" "$examples/c/agreed.circuit" "$examples/c/statements.bin" | diff examples/c/fold_batch.expected -
    "$folder/collect.$kind" "$examples/c/agreed.circuit" "$examples/c/statements.bin" >/dev/null || fail "$kind: collect"
    "$folder/decide_one.$kind" | diff <(printf 'cast 0: accepted\ndecide 0: accepted\nthe item holds with the witness lent\n') -
    "$folder/containers.$kind" >/dev/null
    unset LD_LIBRARY_PATH
    needed=$(readelf -d "$folder/fold_batch.$kind" | grep -cF "[$soname]" || true)
    [ "$needed" = "$([ $kind = shared ] && echo 1 || echo 0)" ] || fail "$kind: the program is linked in another way"
done

# ---- The programs, from another folder and by a link
(
    cd "$folder"
    status=0
    "$to/bin/claims" "$examples/sheets/printed.sheet" >"$folder/out" || status=$?
    [ "$status" = 1 ] || fail "claims: status $status"
    ln -s "$to/bin/claims" "$folder/linked"
    "$folder/linked" <"$examples/sheets/rooted.sheet" >>"$folder/out" || fail 'claims by a link'
    "$to/libexec/lomvuze/claims" <"$examples/sheets/printed.sheet" >>"$folder/out"
    "$to/bin/lomvuze-root" 2 3 >>"$folder/out" || fail 'lomvuze-root'
)
root=$(sed -n '/^item/s/.*\t//p' examples/sheets/rooted.sheet | head -n 1)
cat examples/sheets/{printed,rooted,printed}.listing <(echo "$root") | diff - "$folder/out"

# ---- The commands of docs/SHEETS.md, as that page says that they are run where the library is installed
pages=0
while IFS= read -r -d '' commands && IFS= read -r -d '' output; do
    commands=$(sed '/^make /d; s|target/claims|claims|; s|target/root|lomvuze-root|' <<<"$commands")
    [ "$(cd "$to/share/doc/lomvuze" && PATH="$to/bin:$PATH" bash -c "$commands")" = "$output" ] || fail "installed, another output of: $commands"
    pages=$((pages + 1))
done < <(blocks_of docs/SHEETS.md)
[ "$pages" -ge 11 ] || fail "docs/SHEETS.md: $pages commands found"

# ---- The shared library: it exports what the header declares, and nothing else; its name, links and version
declared=$(sed -n 's/^\(uint[0-9]*_t \|const char \*\)\(lomvuze_[a-z_]*\)(.*/\2/p' "$to/include/lomvuze.h" | sort)
diff <(echo "$declared") <(nm -D --defined-only "$to/lib/liblomvuze.so" | awk '{ print $NF }' | sort) || fail 'the shared library (>) exports other names than the header declares (<)'
diff <(echo "$declared") <(nm --defined-only --extern-only "$to/lib/liblomvuze.a" | awk 'NF == 3 { print $3 }' | sort) || fail 'the archive (>) has other global names'
[ "$(readlink "$to/lib/liblomvuze.so")" = "$soname" ] && [ "$(readlink "$to/lib/$soname")" = "liblomvuze.so.$version" ] || fail 'the links'
readelf -d "$to/lib/liblomvuze.so" >"$folder/dynamic"
grep SONAME "$folder/dynamic" | grep -qF "[$soname]" || fail 'the soname'
! grep -q TEXTREL "$folder/dynamic" || fail 'the shared library has text relocations'
grep -q 'BIND_NOW\|FLAGS_1.*NOW' "$folder/dynamic" || fail 'the shared library is not bound when it is loaded'
printf '#include <lomvuze.h>\n#include <stdio.h>\nint main(void) { puts(lomvuze_version()); }\n' >"$folder/version.c"
build cc -std=c11 archive version "$folder/version.c"
[ "$("$folder/version")" = "$version" ] || fail "pkg-config says version $version and the library $("$folder/version")"

# ---- Documents and man pages
for page in README.md CHANGES.md LICENSE docs/*.md docs/*.svg; do
    [ "$page" = docs/READING.md ] || cmp "$page" "$to/share/doc/lomvuze/$page" || fail "share/doc/lomvuze/$page is another one"
done
cmp target/READING.md "$to/share/doc/lomvuze/docs/READING.md" || fail 'the whole reading list is not installed'
for page in docs/READING.md docs/AUDIT.md docs/FORMAT.md docs/OBLIGATIONS.md docs/SHEETS.md docs/crates.svg lomvuze.txt; do
    [ -s "$to/share/doc/lomvuze/$page" ] || fail "share/doc/lomvuze/$page is missing"
done
grep -q '^WHAT THE CALLER SEES TO$' "$to/share/doc/lomvuze/lomvuze.txt" || fail "lomvuze.txt is not the header's page"
# The page of each function has its prototype; that of a call its stack and, among others, check 2.
declaration() { awk -v start="^[a-z].*[ *]$1[(]" '$0 ~ start { on = 1 } on { all = all " " $0 } on && /;/ { gsub(/^ +|  +/, " ", all); print substr(all, 2); exit }' "$to/include/lomvuze.h"; }
shown() {
    awk '
        /^\.F[ta] / { text = $0; gsub(/^[^"]*"|"$/, "", text) }
        /^\.Ft / { type = text ~ /\*$/ ? text : text " " }
        /^\.Fo / { name = $2 }
        /^\.Fa / { parameters = parameters (parameters == "" ? "" : ", ") text }
        END { print type name "(" parameters ");" }' "$1"
}
for name in $declared; do
    page="$to/share/man/man3/$name.3"
    grep -q "^\.Nm $name\( ,\)\?$" "$to/share/man/man3/lomvuze.3" && grep -q "^\.It Xr $name 3$" "$to/share/man/man3/lomvuze.3" || fail "lomvuze.3 does not name $name"
    diff <(declaration "$name") <(shown "$page") || fail "$name.3 (>) has another prototype than the header (<)"
    [[ "$(declaration "$name")" != uint* ]] || { grep -q '^Stack: [0-9,]* bytes' "$page" && grep -q '^\.It 2 Dv LOMVUZE_SIZE$' "$page"; } || fail "$name.3 lacks checks or stack"
done
for page in "$to"/share/man/man[13]/*; do
    warnings=$(man --warnings -E UTF-8 -l -Tutf8 -Z "$page" 2>&1 >/dev/null)
    [ -z "$warnings" ] || fail "$page: $warnings"
done
text=$(man -M "$to/share/man" 3 lomvuze_verify 2>/dev/null)
[[ "$text" == *'lomvuze_verify(uint32_t m, '* && "$text" == *'7 LOMVUZE_NEW_ITEM '* ]] || fail 'man lomvuze_verify'
! awk -v call=lomvuze_none -f make/man.awk docs/man/lomvuze.3 include/lomvuze.h >"$folder/page" 2>/dev/null || fail 'a page of a function that is not declared'

# ---- The same files under DESTDIR, and the prefix without it; a prefix that is no full path; and nothing is left
make -s install DESTDIR="$folder/packed here" PREFIX=/usr
installed() { (cd "$1" && find . -not -type d | sort); }
diff <(installed "$to") <(installed "$folder/packed here/usr")
PKG_CONFIG_LIBDIR="$folder/packed here/usr/lib/pkgconfig"
[ "$(pkg-config --variable=prefix lomvuze)" = /usr ] || fail 'DESTDIR changes the prefix'
near=target/installed-here
rm -rf $near
make -s install PREFIX=$near
[ "$(sed -n 's/^prefix=//p' $near/lib/pkgconfig/lomvuze.pc)" = "$PWD/$near" ] || fail 'a prefix that is no full path'

touch "$to/lib/other" "$to/share/man/man3/other.3"
make -s uninstall PREFIX="$to"
make -s uninstall DESTDIR="$folder/packed here" PREFIX=/usr
make -s uninstall PREFIX=$near
[ ! -e "$to/libexec/lomvuze" ] && [ ! -e "$to/share/doc/lomvuze" ] || fail 'folders are left'
left=$(installed "$to"; installed "$folder/packed here"; installed $near)
[ "$left" = $'./lib/other\n./share/man/man3/other.3' ] || fail "not removed, or too much: $left"
rm -rf $near
echo "install: libraries, headers, pkg-config file, programs, documents, examples and man pages of version $version as expected"
