#!/usr/bin/env bash
# The library for C and C++: the calls, answers and versions in all places that have them (tests/calls.sh, tests/header.sh), and what the headers let a
# compiler say (tests/attributes.sh); headers, tests and examples under each compiler and standard, without a warning; the tests (tests/c); and the examples,
# run (tests/examples.sh).
# LOMVUZE_STATICLIB names another folder with libverdicts.a in it; nothing is proved then. The programs are run by the command that LOMVUZE_RUN
# gives, if any (tests/valgrind.sh). Needs gcc and clang, for C and C++.
set -euo pipefail
. "$(dirname "$0")/common.sh"
needs gcc clang g++ clang++
bash tests/header.sh
bash tests/calls.sh
bash tests/attributes.sh
make -s all
library=target/liblomvuze.a
temporary
bash make/calls.sh header >"$folder/calls.h"

# ---- Compilers and standards
flags=(-Wall -Wextra -Wpedantic -Wconversion -Wsign-conversion -Wshadow -Wundef -Werror -Iinclude -I"$folder")
plus=("${flags[@]}" -Wold-style-cast)
ways=0
# Runs a command on each name that it reads, as many at a time as there are processors.
at_once() { xargs -P "$(nproc)" -n 1 "$@"; }
for compiler in gcc clang; do
    for standard in c11 c17; do
        printf '%s\n' c/*.c tests/c/*.c examples/c/*.c | at_once $compiler -std=$standard "${flags[@]}" -Wstrict-prototypes -fsyntax-only
        ways=$((ways + 1))
    done
done
for compiler in g++ clang++; do
    for standard in c++11 c++14 c++17 c++20; do
        printf '%s\n' tests/c/{containers.cc,lengths.c,blocks.c} | at_once $compiler -std=$standard "${plus[@]}" -fsyntax-only -x c++
        ways=$((ways + 1))
    done
done
echo "C and C++: no warning under $ways compilers and standards"

# ---- The tests
programs=(lengths calls plain first_input blocks drawing drawing_refused)
for program in "${programs[@]}"; do
    cc -std=c11 -O1 "${flags[@]}" -o "$folder/$program" "tests/c/$program.c" $library
done
c++ -std=c++11 -O1 "${plus[@]}" -o "$folder/containers" tests/c/containers.cc $library
c++ -std=c++11 -O1 "${plus[@]}" -o "$folder/lengths_plus" -x c++ tests/c/lengths.c -x none $library
c++ -std=c++11 -O1 "${plus[@]}" -o "$folder/blocks_plus" -x c++ tests/c/blocks.c -x none $library
for program in "${programs[@]}" lengths_plus blocks_plus containers; do
    ${LOMVUZE_RUN:-} "$folder/$program" || { echo "FAILED: $program"; exit 1; }
done

# ---- The control: where the description has another length, the test of all calls says so, and so does that of the macros
mkdir "$folder/changed"
sed 's/^part r = 4\*m$/part r = 4*m+4/' rust/calls/calls.txt >"$folder/changed/calls.txt"
LOMVUZE_CALLS=$folder/changed/calls.txt bash make/calls.sh header >"$folder/changed/calls.h"
! cmp -s "$folder/calls.h" "$folder/changed/calls.h" || { echo 'FAILED: the description is not changed'; exit 1; }
for program in lengths calls; do
    cc -std=c11 -O1 -I"$folder/changed" "${flags[@]}" -o "$folder/changed/$program" "tests/c/$program.c" $library
    ! "$folder/changed/$program" >"$folder/changed/log" || { echo "FAILED: $program does not notice another length"; exit 1; }
done

bash tests/examples.sh
