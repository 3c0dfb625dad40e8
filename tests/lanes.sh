#!/usr/bin/env bash
# Four messages are hashed side by side by vector instructions: the machine code of libverdicts.a has a loop with the shifts, sums and bit operations of four
# rounds on vector registers, in a function that rotates no single word; every call that builds a tree reaches it, and verifying, which counts its blocks
# where they are hashed one at a time, does not. The loop is found by the amounts of its shifts, in whatever function it stands. Needs objdump (binutils).
# LOMVUZE_STATICLIB names another folder with libverdicts.a in it; nothing is proved then.
set -euo pipefail
. "$(dirname "$0")/common.sh"
needs objdump
libraries verdicts
archive=$staticlib/libverdicts.a
temporary
objdump -dr --no-show-raw-insn "$archive" >"$folder/code"

# The loops of the functions that have vector shifts. A line each: the function, how many instructions the loop has, how many rotations of single words
# the function has, and how often the loop has each vector operation, a shift with its amount: psrld:17=4 paddd=40.
loops() {
    awk '
    function finish(    i) {
        for (i = 1; i <= n && vectors; i++) if (target[i] in place && place[target[i]] <= i) show(place[target[i]], i)
        split("", place); split("", target)
        n = vectors = rotations = 0
    }
    function show(from, to,    i, key, found, line) {
        for (i = from; i <= to; i++) if (vector[i]) found[operation[i]]++
        line = name "\t" to - from + 1 "\t" rotations "\t"
        for (key in found) line = line key "=" found[key] " "
        print line
    }
    function amount(operand) { sub(/,.*/, "", operand); return operand }
    /^[0-9a-f]+ <.*>:$/ { finish(); name = $0; sub(/^[^<]*</, "", name); sub(/>:$/, "", name) }
    /^ +[0-9a-f]+:\t/ {
        operation[++n] = $2
        sub(/^v/, "", operation[n])
        if (operation[n] ~ /^ps[rl]ld$/) { vectors++; operation[n] = operation[n] ":" amount($3) }
        vector[n] = $3 ~ /%[xyz]mm/
        place[substr($1, 1, length($1) - 1)] = n
        target[n] = $2 ~ /^j/ ? $3 : ""
        rotations += $2 ~ /^(ro[lr]|rorx|sh[lr]d)[lqw]?$/
    }
    END { finish() }' "$1"
}

# Of these, the shortest loop with what four rounds and four words of the schedule take (FIPS 180-4, 4.1.2 and 6.2.2), where a vector has one word of each
# message: the function, its rotations of single words, and the loop's shifts, sums, xors and ands.
# - Shifts: a rotation is one to the right and one to the left. A round has the 6 rotations of the functions Σ. A word of the schedule has the 4 rotations
#   of the functions σ, and their 2 shifts. That is 4 by each amount, and 4 × (12 + 10) = 88.
# - Sums: 7 in a round, 3 in a word: 40. Xors: 2 in each Σ and each σ: 32, and more in Ch and Maj. Ands: at least one in Ch and one in Maj: 8.
round() {
    loops "$1" | sort -t "$(printf '\t')" -k2n | awk -F '\t' '
    BEGIN {
        split("2 13 22 6 11 25 7 18 17 19", rotation, " ")
        for (i in rotation) { need[sprintf("psrld:$0x%x", rotation[i])] = 4; need[sprintf("pslld:$0x%x", 32 - rotation[i])] = 4 }
        need["psrld:$0x3"] = need["psrld:$0xa"] = 4
    }
    {
        split("", found)
        count = split($4, part, " ")
        shifts = xors = ands = 0
        for (i = 1; i <= count; i++) {
            split(part[i], pair, "=")
            found[pair[1]] = pair[2]
            if (pair[1] ~ /:/) shifts += pair[2]
            if (pair[1] ~ /^(pxor|xorps)$/) xors += pair[2]
            if (pair[1] ~ /^(pandn?|andn?ps)$/) ands += pair[2]
        }
        whole = found["paddd"] >= 40 && xors >= 32 && ands >= 8
        for (key in need) whole = whole && found[key] >= need[key]
        if (whole) { print $1 "\t" $3 "\t" shifts "\t" found["paddd"] "\t" xors "\t" ands; exit }
    }'
}

# The functions that a function reaches, itself included, by what the linker fills in: a symbol, or the section that a function has to itself.
reached() {
    awk -v start="$2" '
    /^[0-9a-f]+ <.*>:$/ { name = $0; sub(/^[^<]*</, "", name); sub(/>:$/, "", name) }
    /: R_X86_64_/ {
        user[++n] = name
        used[n] = $0
        sub(/.*\t(\.text\.)?/, "", used[n])
        sub(/[-+]0x[0-9a-f]+$/, "", used[n])
    }
    END {
        seen[start] = more = 1
        while (more) {
            more = 0
            for (i = 1; i <= n; i++) if (user[i] in seen && !(used[i] in seen)) seen[used[i]] = more = 1
        }
        for (symbol in seen) print symbol
    }' "$1"
}

# ---- The archive
IFS=$'\t' read -r function rotations shifts sums xors ands < <(round "$folder/code") ||
    fail "no loop of $archive has four rounds of SHA-256 in vector instructions: the compiler hashes word by word"
[ "$rotations" = 0 ] || fail "$function of $archive, which has the rounds in vectors, also rotates single words, $rotations times"
reaches() { # reaches CALL
    reached "$folder/code" "lomvuze_$1" >"$folder/reached"
    grep -qxF "$function" "$folder/reached"
}
calls=(encode cast quotient fold open decide)
for call in "${calls[@]}"; do
    reaches "$call" || fail "lomvuze_$call of $archive does not reach $function"
done
! reaches verify || fail "lomvuze_verify of $archive reaches $function, which counts no blocks"
grep -q '^[0-9a-f]* <lomvuze_verify>:$' "$folder/code" || fail "lomvuze_verify is not in $archive"

# ---- Controls: the same code without what is looked for
controls=0
refuses() { # refuses WHAT SED-SCRIPT
    sed "$2" "$folder/code" >"$folder/changed"
    ! cmp -s "$folder/code" "$folder/changed" || fail "control: $1: nothing is changed"
    [ -z "$(round "$folder/changed")" ] || fail "control: $1 is taken for vector instructions"
    controls=$((controls + 1))
}
refuses 'a loop on general registers' 's/%xmm[0-9]*/%eax/g'
refuses 'a loop without the rotation by 17' '/psrld *\$0x11,/d'
refuses 'a loop whose shifts by 30 are words' '/pslld *\$0x1e,/s/xmm/r/'
refuses 'a loop without sums' 's/paddd/psubd/'
refuses 'rounds that are not in a loop' 's/\tj[a-z]* .*/\tnop/'
echo "lanes: $function has four rounds in vectors: $shifts shifts, $sums sums, $xors xors, $ands ands; ${#calls[@]} calls reach it; $controls controls"
