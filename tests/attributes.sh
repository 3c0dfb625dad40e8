#!/usr/bin/env bash
# What the headers let a compiler say. Each call warns of each pointer that is null and of an answer that is ignored, under gcc and clang, in C and C++,
# and says nothing where it is called as it should be; those of lomvuze.hpp warn of an ignored answer. And g++ finds no useless cast in any macro, with
# arguments of each integer type, nor in lomvuze.hpp over containers; a control shows that it looks. Nothing is linked. Needs gcc and clang, for C and C++.
set -euo pipefail
. "$(dirname "$0")/common.sh"
needs gcc clang g++ clang++
temporary
compile() { "$1" -std="$2" -O1 -Wall -Wextra -Wpedantic -Wno-unused-parameter -Iinclude "${@:4}" -c -o "$folder/object" "$3"; }
check() { "$1" -std="$2" -Wall -Wextra -Wpedantic -Wno-unused-parameter -Iinclude "${@:4}" -fsyntax-only "$3"; }

# ---- A function to a line for each call, which passes its own parameters on: as they are; with one pointer null, for each pointer; the answer ignored
calls() { # calls KIND: from the header's prototypes that return a number
    sed -n '/^uint[0-9]*_t lomvuze_/,/;/p' include/lomvuze.h | tr '\n' ' ' | sed 's/; */;\n/g; s/  */ /g' | awk -F'[()]' -v kind="$1" '
        function test(before, skip,   i, names) {
            for (i = 1; i <= count; i++) names = names (i > 1 ? ", " : "") (i == skip ? "NULL" : name[i])
            number++
            printf "uint64_t test_%d(%s); uint64_t test_%d(%s) { %s%s(%s); %s}\n",
                number, $2, number, $2, before, call, names, before == "" ? "return 0; " : ""
        }
        BEGIN { print "#include \"lomvuze.h\"" }
        {
            call = $1
            sub(/.* /, "", call)
            count = split($2, parameter, ", ")
            for (i = 1; i <= count; i++) { name[i] = parameter[i]; sub(/\[.*/, "", name[i]); sub(/.*[ *]/, "", name[i]) }
            if (kind == "plain") test("return ", 0)
            if (kind == "ignored") test("", 0)
            if (kind == "null") for (i = 1; i <= count; i++) if (parameter[i] ~ /[*[]/) test("return ", i)
        }'
}
containers() { # the same with ignored answers, from the functions of lomvuze.hpp
    tr '\n' ' ' <include/lomvuze.hpp | grep -o 'inline uint[0-9]*_t [a-z_]*([^{]*noexcept' | sed 's/ noexcept$//; s/  */ /g' | awk '
        BEGIN { print "#include \"lomvuze.hpp\""; print "using lomvuze::in; using lomvuze::out;" }
        {
            call = $0
            sub(/\(.*/, "", call)
            sub(/.* /, "", call)
            parameters = $0
            sub(/^[^(]*\(/, "", parameters)
            sub(/\) *$/, "", parameters)
            count = split(parameters, parameter, ", ")
            names = ""
            for (i = 1; i <= count; i++) { gsub(/[()&]|\[7\]/, "", parameter[i]); sub(/.* /, "", parameter[i]); names = names (i > 1 ? ", " : "") parameter[i] }
            printf "void test_%d(%s); void test_%d(%s) { lomvuze::%s(%s); }\n", NR, parameters, NR, parameters, call, names
        }'
}
for kind in plain null ignored; do calls $kind >"$folder/$kind.c"; done
containers >"$folder/containers.cc"
for kind in plain null ignored; do cp "$folder/$kind.c" "$folder/$kind.cc"; done
for source in plain.c ignored.c containers.cc; do
    [ "$(grep -c ' test_' "$folder/$source")" = "$(bash make/calls.sh names | wc -l)" ] || fail "$source is not about the calls of rust/calls/calls.txt"
done
pointers=$(sed -n '/^uint[0-9]*_t lomvuze_/,/;/p' include/lomvuze.h | grep -o '[*[]' | wc -l)
[ "$(grep -c NULL "$folder/null.c")" = "$pointers" ] || fail "not each of the $pointers pointers is tried"

warned=0
warns() { # warns COMPILER STANDARD SOURCE OPTION: a warning by this option on each line with a test, and none by another
    compile "$1" "$2" "$folder/$3" >"$folder/said" 2>&1 || fail "$3 under $1: $(grep error "$folder/said" | cut -c1-300 | head -n 5)"
    diff <(grep -n ' test_' "$folder/$3" | cut -d: -f1) <(sed -n "s/^[^:]*:\([0-9]*\):.* warning: .*\[$4.*/\1/p" "$folder/said" | sort -nu) >"$folder/other" ||
        { cat "$folder/other"; fail "$3 under $1: lines with a test (<) are not those with a warning (>) by $4"; }
    ! grep 'warning: ' "$folder/said" | grep -qvF "[$4" || fail "$3 under $1 has other warnings"
    warned=$((warned + $(grep -c ' test_' "$folder/$3")))
}
for compiler in 'gcc c11 c' 'clang c11 c' 'g++ c++11 cc' 'clang++ c++11 cc' 'g++ c++20 cc' 'clang++ c++20 cc'; do
    read -r name standard suffix <<<"$compiler"
    compile "$name" "$standard" "$folder/plain.$suffix" -Werror || fail "a warning under $name -std=$standard where nothing is wrong"
    warns "$name" "$standard" "null.$suffix" -Wnonnull
    warns "$name" "$standard" "ignored.$suffix" -Wunused-result
    [ "$suffix" = c ] || warns "$name" "$standard" containers.cc -Wunused-result
done

# ---- Every macro in C++, with arguments of each integer type and with constants
macros() { # macros ARGUMENT: each macro over this argument, or without any, as a condition
    sed -n 's/^#define \(LOMVUZE_[A-Z_]*\)\((\([a-z, ]*\))\)\{0,1\} .*/\1\2/p' include/lomvuze.h |
        grep -vE '^LOMVUZE_(AS|LENGTH|TEXT|QUOTED|VERSION|EMPTY|BUILT_IN_POINTS|CALL|CHECKED)\b' |
        sed "/(/s/[a-z][a-z]*/$1/g; s/.*/  if (& != 0) count++;/" | sort -u
}
{
    echo '#include "lomvuze.h"'
    number=0
    for type in bool char 'signed char' uint8_t short uint16_t int uint32_t long int64_t uint64_t size_t 'long long' 'unsigned long long' lomvuze_answer; do
        number=$((number + 1))
        printf 'int test_%d(%s x);\nint test_%d(%s x) {\n  int count = 0;\n%s\n  return count;\n}\n' $number "$type" $number "$type" "$(macros x)"
    done
    printf 'int constants();\nint constants() {\n  int count = 0;\n%s\n  return count;\n}\n' "$(macros 2)"
} >"$folder/macros.cc"
tried=$(macros x | wc -l)
[ "$tried" -gt 40 ] || fail "only $tried macros were found"
for standard in c++11 c++20; do
    for source in "$folder/macros.cc" tests/c/containers.cc; do
        check g++ $standard "$source" -Wuseless-cast -Wold-style-cast -Werror || fail "a useless cast with -std=$standard"
    done
done
{ echo 'extern "C" {'; echo '#include "lomvuze.h"'; echo '}'; sed 1d "$folder/macros.cc"; } >"$folder/linkage.cc"
for compiler in g++ clang++; do check $compiler c++11 "$folder/linkage.cc" -Werror || fail "the header within extern \"C\" under $compiler"; done
mkdir "$folder/cast"
sed 's/lomvuze_as<type>::of(x)/static_cast<type>(x)/' include/lomvuze.h >"$folder/cast/lomvuze.h"
! cmp -s "$folder/cast/lomvuze.h" include/lomvuze.h || fail 'the control changes nothing'
said=$(g++ -std=c++11 -Wuseless-cast -I"$folder/cast" -fsyntax-only "$folder/macros.cc" 2>&1)
for macro in VERDICT BLOCKS ITEM_BYTES VERIFY_BLOCKS; do
    grep -q "Wuseless-cast" <<<"$said" && grep -q "LOMVUZE_$macro" <<<"$said" || fail "a useless cast in LOMVUZE_$macro is not noticed"
done
echo "attributes: $warned null pointers and ignored answers are warned of, and no useless cast in $tried macros"
