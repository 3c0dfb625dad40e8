#!/usr/bin/env bash
# The calls are the same ones everywhere. The description, rust/calls/calls.txt, agrees with the header's prototypes and the checks that its comments list,
# with what crates/verdicts_c/src exports and both archives define, with lomvuze.hpp, the man page and the table of docs/CALLS.md; and each call has a fuzz
# target and seeds. Then the controls: each kind of change is noticed, and a malformed description is refused by its line.
# LOMVUZE_STATICLIB names another folder with libverdicts.a in it; nothing is proved then. Needs awk, nm and a C compiler.
set -euo pipefail
. "$(dirname "$0")/common.sh"
needs awk nm
make -s all
temporary
same() { # same EXPECTED WHAT: what is read on standard input is the file expected
    diff "$1" - || fail "$2 (>) is not what rust/calls/calls.txt says (<)"
}
described() { LOMVUZE_CALLS=${2:-rust/calls/calls.txt} bash make/calls.sh "$1"; }
for list in names prototypes checks; do described $list >"$folder/$list"; done
sort "$folder/prototypes" >"$folder/sorted_prototypes"
sort "$folder/checks" >"$folder/sorted_checks"

# ---- The header, in its order
prototypes() { awk -v which=prototypes -f tests/prototypes.awk "$1"; }
header_checks() { awk -v which=checks -f tests/prototypes.awk "$1"; }
prototypes include/lomvuze.h | same "$folder/prototypes" 'what include/lomvuze.h declares'
header_checks include/lomvuze.h | same "$folder/checks" 'what include/lomvuze.h lists as checks'
overview() { sed -n '/^ \* CALLS/,/^ \*$/s/^ \*   lomvuze_\([a-z_]*\) .*/\1/p' "$1" | grep -vxE 'strerror|version' | sort; }
sort "$folder/names" >"$folder/sorted_names"
overview include/lomvuze.h | same "$folder/sorted_names" 'what the first comment of include/lomvuze.h names'

# ---- What verdicts_c exports. An output's name gets _out; two parameters have a name in the header that says more.
exported() {
    tr '\n' ' ' <"$1" | grep -o 'pub extern "C" fn [^{]*' |
        sed 's/.* fn //; s/ *ensures .*//; s/, *)/)/; s/( */(/; s/) *-> */)/; s/ *$//' |
        awk -F'[()]' '
            function say(text) { printf "%s %02d %s\n", call, line++, text }
            function named(name) {
                if (call == "lomvuze_quotient" && name == "out") return "quotient"
                return call == "lomvuze_verify" && name == "item" ? "new_item" : name
            }
            function returned(type) {
                return type == "u32" ? "uint32_t" : type == "u64" ? "uint64_t" : "a type without a rule: " type
            }
            {
                call = $1
                line = 0
                say("returns " returned($3))
                count = split($2, parameters, /, */)
                for (i = 1; i <= count; i++) {
                    split(parameters[i], part, /: */)
                    name = named(part[1])
                    if (part[2] == "u32") say("uint32_t " name)
                    else if (part[2] == "&[u8]") { say("const uint8_t *" name); say("size_t " name "_len") }
                    else if (part[2] == "&mut [u8]") { say("uint8_t *" name "_out"); say("size_t " name "_out_len") }
                    else if (part[2] ~ /^&mut \[u32; [0-9]+\]$/) say("uint32_t " name "_out[" substr(part[2], 12))
                    else say("a type without a rule: " parameters[i])
                }
            }' | sort
}
cat crates/verdicts_c/src/*.rt >"$folder/verdicts.rt"
exported "$folder/verdicts.rt" | same "$folder/sorted_prototypes" 'what crates/verdicts_c/src exports'

# ---- The archives: the proved one has the calls alone, that for programs two functions more
symbols() { nm --defined-only "$1" | awk '$3 ~ /^lomvuze_/ { print $2, $3 }' | sort; }
sed 's/^/T lomvuze_/' "$folder/names" | sort >"$folder/symbols"
symbols "$staticlib/libverdicts.a" | same "$folder/symbols" 'what libverdicts.a defines'
printf 'T lomvuze_%s\n' strerror version | sort "$folder/symbols" - >"$folder/more_symbols"
symbols target/liblomvuze.a | same "$folder/more_symbols" 'what target/liblomvuze.a defines'

# ---- lomvuze.hpp: a function for each call, with `in` and `out` for its buffers, which passes all of them on
wrappers() { # what it returns, its parameters, and the arguments that it passes on
    tr '\n' ' ' <"$1" | grep -o 'inline uint[0-9]*_t [a-z_]*([^{]*{ *return lomvuze_[^;]*;' |
        sed 's/  */ /g; s/^inline //; s/ noexcept//; s/( /(/g'
}
awk '
    function flush() { if (call != "") printf "%s %s(%s) { return lomvuze_%s(%s);\n", returned, call, substr(parameters, 3), call, substr(arguments, 3) }
    $3 == "returns" { flush(); call = substr($1, 9); returned = $4; parameters = arguments = ""; next }
    $3 == "size_t" { next }
    { name = $NF; gsub(/^\*|_out/, "", name) }
    name ~ /\[/ { split(name, array, "["); parameters = parameters ", " $3 " (&" array[1] ")[" array[2]; arguments = arguments ", " array[1]; next }
    $NF ~ /^\*/ { parameters = parameters ", " ($3 == "const" ? "in " : "out ") name; arguments = arguments ", " name ".data(), " name ".size()"; next }
    { parameters = parameters ", " $3 " " name; arguments = arguments ", " name }
    END { flush() }' "$folder/prototypes" >"$folder/wrappers"
wrappers include/lomvuze.hpp | same "$folder/wrappers" 'what include/lomvuze.hpp has'

# ---- The man page names the calls and two functions more, says a line of each, and speaks of no other but those that the header defines itself
named() { sed -n 's/^\.Nm \(lomvuze_[a-z_]*\).*/\1/p' "$1" | sort; }
listed() { sed -n 's/^\.It Xr \(lomvuze_[a-z_]*\) 3$/\1/p' "$1" | sort; }
spoken_of() { grep -o 'lomvuze_[a-z_]*' "$1" | sort -u | grep -vxFf "$folder/inline"; }
sed -n 's/^static inline .*\(lomvuze_[a-z_]*\)(.*/\1/p' include/lomvuze.h >"$folder/inline"
cut -d' ' -f2 "$folder/more_symbols" >"$folder/functions"
for reader in named listed spoken_of; do $reader docs/man/lomvuze.3 | same "$folder/functions" "what docs/man/lomvuze.3 has ($reader)"; done

# ---- The table of calls
rows() {
    awk -F'|' '/^\| `lomvuze_[a-z_]*` \|/ {
        call = $2
        gsub(/[ `]|lomvuze_/, "", call)
        checks = $(NF - 1)
        gsub(/,/, "", checks)
        sub(/ +$/, "", checks)
        print call checks
    }' "$1" | sort
}
page=docs/CALLS.md
rows $page | same "$folder/sorted_checks" "the table of $page"

# ---- Fuzz targets, each for the call of its name, and seeds
while read -r call; do
    grep -qF "described_calls[CALL_${call^^}]" "fuzz/$call.c" || fail "there is no target of lomvuze_$call in fuzz/$call.c"
    [ -n "$(ls -A "fuzz/corpus/$call")" ] || fail "there is no seed in fuzz/corpus/$call"
done <"$folder/names"
find fuzz/corpus -mindepth 1 -maxdepth 1 -printf '%f\n' | sort | same <(sort "$folder/names") 'what fuzz/corpus has'

# ---- The controls: a changed copy is another one
controls=0
noticed() { # noticed READER FILE EXPECTED SED-SCRIPT
    sed "$4" "$2" >"$folder/changed"
    ! cmp -s "$folder/changed" "$2" || fail "nothing in $2 is changed by: $4"
    ! "$1" "$folder/changed" | cmp -s - "$3" || fail "not noticed in $2: $4"
    controls=$((controls + 1))
}
unnoticed() { # the same, where what is read stays
    sed "$4" "$2" >"$folder/changed"
    ! cmp -s "$folder/changed" "$2" || fail "nothing in $2 is changed by: $4"
    "$1" "$folder/changed" | cmp -s - "$3" || fail "noticed in $2: $4"
    controls=$((controls + 1))
}
while read -r script; do
    noticed prototypes include/lomvuze.h "$folder/prototypes" "$script"
done <<'SCRIPTS'
/^uint32_t lomvuze_decide(/,/;/s/const uint8_t \*item/uint8_t *item/
/^uint32_t lomvuze_decide(/,/;/{/points/d}
/^uint32_t lomvuze_open(/,/;/s/uint8_t \*openings_out/const uint8_t *openings_out/
/^uint32_t lomvuze_cast(/,/;/s/size_t r_len/uint32_t r_len/
/^uint32_t lomvuze_fold(/,/;/{s/items/other/g;s/wits/items/g;s/other/wits/g}
/^uint64_t lomvuze_verify(/,/;/s/uint32_t l, uint32_t t/uint32_t t, uint32_t l/
/^uint32_t lomvuze_encode(/,/;/s/, size_t root_out_len//
s/uint32_t sizes_out\[7\]/uint32_t sizes_out[8]/
s/^uint32_t lomvuze_quotient(/uint32_t lomvuze_quotients(/
s/^uint64_t lomvuze_verify(/uint32_t lomvuze_verify(/
s/^uint32_t lomvuze_decide(/uint64_t lomvuze_decide(/
s/^uint32_t lomvuze_open(/int lomvuze_open(/
/^uint32_t lomvuze_draw_challenge(/,/;/s/uint8_t \*challenge_out, size_t challenge_out_len/uint32_t *challenge_out/
/^uint32_t lomvuze_draw_positions(/,/;/{s/seed/other/g;s/root/seed/g;s/other/root/g}
/^uint32_t lomvuze_draw_r(/,/;/s/uint8_t \*r_out/const uint8_t *r_out/
s/^uint32_t lomvuze_open(/uint32_t lomvuze_more(uint32_t k);\n&/
/^uint32_t lomvuze_draw_r(/,/;/d
SCRIPTS
unnoticed prototypes include/lomvuze.h "$folder/prototypes" 's/^uint32_t lomvuze_open(/LOMVUZE_BEFORE __attribute__((nonnull(3)))\n&/'
unnoticed prototypes include/lomvuze.h "$folder/prototypes" '/^uint32_t lomvuze_open(/,/;/s/;/ LOMVUZE_BEHIND(1, 2);/'
noticed overview include/lomvuze.h "$folder/sorted_names" '/^ \*   lomvuze_interleave /d'
noticed header_checks include/lomvuze.h "$folder/checks" 's/LOMVUZE_SIZE, LOMVUZE_CHALLENGE\./LOMVUZE_CHALLENGE, LOMVUZE_SIZE./'
noticed header_checks include/lomvuze.h "$folder/checks" 's/LOMVUZE_POINTS, LOMVUZE_POSITION\./LOMVUZE_POINTS./'
noticed header_checks include/lomvuze.h "$folder/checks" 's/^ \* Checks: LOMVUZE_SIZE\./ */'
noticed header_checks include/lomvuze.h "$folder/checks" 's/LOMVUZE_POINTS = 12/LOMVUZE_POINTS = 14/'
noticed exported "$folder/verdicts.rt" "$folder/sorted_prototypes" 's/seed: &mut \[u8\]/seed: \&[u8]/'
noticed exported "$folder/verdicts.rt" "$folder/sorted_prototypes" 's/fn lomvuze_draw_r(/fn lomvuze_draw_s(/'
! symbols target/liblomvuze.a | cmp -s - "$folder/symbols" || fail 'two functions more in an archive are not noticed'
noticed wrappers include/lomvuze.hpp "$folder/wrappers" 's/w.data(), w.size()/w.size(), w.data()/'
noticed wrappers include/lomvuze.hpp "$folder/wrappers" 's/inline uint64_t verify/inline uint32_t verify/'
noticed wrappers include/lomvuze.hpp "$folder/wrappers" 's/lomvuze_draw_r(/lomvuze_draw_s(/'
noticed named docs/man/lomvuze.3 "$folder/functions" '/^\.Nm lomvuze_open/d'
noticed listed docs/man/lomvuze.3 "$folder/functions" '/^\.It Xr lomvuze_decide 3/d'
noticed spoken_of docs/man/lomvuze.3 "$folder/functions" 's/^\.Sh DESCRIPTION/&\n.Fn lomvuze_more\n/'
noticed rows $page "$folder/sorted_checks" '/^| `lomvuze_open` |/s/12, 6/6, 12/'
noticed rows $page "$folder/sorted_checks" '/^| `lomvuze_draw_r` |/d'
noticed rows $page "$folder/sorted_checks" 's/^| `lomvuze_draw_r` |/| `lomvuze_draw_s` |/'

# ---- A malformed description is refused, and the line is named
malformed() { # malformed LINE SED-SCRIPT: the script changes the first line with such a text
    local number
    number=$(grep -nm 1 -- "$1" rust/calls/calls.txt | cut -d: -f1)
    sed "$number$2" rust/calls/calls.txt >"$folder/malformed"
    ! described header "$folder/malformed" >"$folder/written" 2>"$folder/said" || fail "not refused: $2 on line $number"
    [ ! -s "$folder/written" ] || fail "something is written: $2 on line $number"
    grep -q "^$folder/malformed:$((number + ${3:-0})): " "$folder/said" || fail "$2: line $number is not named: $(cat "$folder/said")"
    controls=$((controls + 1))
}
malformed '^part witness =' 's/4\*k/4*/'
malformed '^part witness =' 's/4\*k/(4*k/'
malformed '^part witness =' 's/4\*k/4 k/'
malformed '^part witness =' 's/4\*k/4*K/'
malformed '^part witness =' 's/4\*k/4*other/'
malformed '^part witness =' 's/=.*//'
malformed '^part items =' 's/items/item/'
malformed '^layout opening =' 's/value 4/4/'
malformed '^call cast' 's/32/16/'
malformed '^call cast' 's/cast/encode/'
malformed '^  takes k t' 's/k t/k/' 1
malformed '^  takes k t' 's/k t/k k/'
malformed '^  reads points: points, w: witness$' 's/witness/wit/'
malformed '^  reads points: points, w: witness$' 's/w: witness/witness/'
malformed '^  checks 2 3 12 6' 's/3 12/3 3/'
malformed '^  checks 2 3 12 6' 's/12/twelve/'
malformed '^  checks 2 3 12 6' 'd' 1
sed 's/^  checks.*/&\n  about nothing that is known/' rust/calls/calls.txt >"$folder/more"
described prototypes "$folder/more" | same "$folder/prototypes" 'a description with lines of another word'

echo "calls: $(wc -l <"$folder/names") agree in header, archives, C++, man page, $page and fuzz targets; $controls changes noticed"
