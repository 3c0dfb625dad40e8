#!/usr/bin/env bash
# The program claims on stored sheets and on sheets at the edges, the script that runs it on a file, the program root, and the commands of docs/SHEETS.md.
# LOMVUZE_BIN and LOMVUZE_STATICLIB name other folders with the program claims and with libverdicts.a in them; nothing is built there.
set -euo pipefail
. "$(dirname "$0")/common.sh"
if [ -z "${LOMVUZE_BIN:-}" ]; then
    bash make/prove.sh check claims
fi
libraries verdicts
claims="${LOMVUZE_BIN:-target/bin}/claims"
temporary
root="$folder/root"
cc -std=c11 -O2 -Wall -Wextra -Wpedantic -Werror -Iinclude -o "$root" examples/c/root.c c/lomvuze.c "$staticlib/libverdicts.a"

# Runs the program on standard input: its output is as expected, to the byte.
expect() {
    local name=$1 expected=$2 got
    got=$("$claims" && echo .)
    if [ "$got" != "$expected"$'\n.' ]; then
        printf 'FAILED: %s: output:\n%s\n' "$name" "${got%.}"
        exit 1
    fi
    passed=$((passed + 1))
}
sheet=examples/sheets/printed.sheet
listing=$(cat examples/sheets/printed.listing)

expect 'no last byte 10' "$listing" < <(head -c -1 $sheet)
expect 'in pieces' "$listing" < <(while IFS= read -r line; do printf '%s\n' "$line"; sleep 0.01; done <$sheet)
for stored in examples/sheets/*.sheet; do
    expect "$stored" "$(cat "${stored%.sheet}.listing")" <"$stored"
done
expect 'an empty sheet' $'refused\t1' </dev/null
expect 'another first input in the first item' $'refused\t13' < <(sed 's/\t1\t6\t/\t0\t6\t/' $sheet)
expect 'another first input, and an entry outside' $'refused\t4' < <(sed 's/^c\t0/c\t1/' examples/sheets/refused-13.sheet)
expect 'the last pair removed, and end recounted' "$(sed '1s/2/1/; 3d' examples/sheets/printed.listing)" < <(sed '7,8d; s/^end.*/end\t1/' $sheet)
expect 'no pair' $'refused\t2' < <(sed '/^item/d; /^wit/d; s/^end.*/end\t0/' $sheet)
expect '100 million bytes' $'refused\t1' < <(head -c 100000000 /dev/zero 2>/dev/null)

# A sheet of so many bytes, near 60,000: 64 pairs of m = 6, n = 64, k = 32, and entries of A of ten bytes each, the last one longer by what is left.
long() {
    awk -v bytes="$1" 'BEGIN {
        zeros = sprintf("%064d", 0)
        for (i = 0; i < 64; i++) {
            pairs = pairs "item"
            for (j = 0; j < 71; j++) pairs = pairs "\t" (j == 7 ? 1 : i < 58 ? 1000000000 : 0)
            pairs = pairs "\t" zeros "\nwit"
            for (j = 0; j < 32; j++) pairs = pairs "\t1"
            pairs = pairs "\n"
        }
        printf "size\t6\t64\t32\n"
        left = bytes - length("size\t6\t64\t32\n") - length(pairs) - length("end\t64\n")
        for (row = 10; left >= 20; row++)
            for (column = 10; column < 90 && left >= 20; column++) { printf "a\t%d\t%d\t1\n", row, column; left -= 10 }
        printf "a\t63\t90\t%s\n", substr("1000000000", 1, left - 9)
        printf "%send\t64\n", pairs
    }'
}
length_of() { long "$1" | wc -c; }
[ "$(length_of 60000)" = 60000 ] && [ "$(length_of 60001)" = 60001 ] || fail "the long sheets have $(length_of 60000) and $(length_of 60001) bytes"
[ "$("$claims" < <(long 60000) | head -1)" = $'claims\t64' ] || fail '60,000 bytes are not accepted'
[ "$("$claims" < <(long 60000) | wc -l)" = 65 ] || fail '60,000 bytes: not every item is listed'
expect '60,001 bytes' $'refused\t1' < <(long 60001)
passed=$((passed + 2))

# A slow reader of the pipe gets all of the listing; a closed output ends the program.
[ "$("$claims" < <(long 60000) | (sleep 0.2; cat) | md5sum)" = "$("$claims" < <(long 60000) | md5sum)" ] || fail 'a slow reader gets another listing'
timeout 10 "$claims" <$sheet >&- && status=0 || status=$?
[ "$status" != 124 ] || fail 'a closed output does not end the program'
passed=$((passed + 2))

# A read or a write that fails ends the program with status 1 and what failed, and no listing.
ends() { # ends WHAT TEXT: the last run ended so
    [ "$status" = 1 ] && [ ! -s "$folder/out" ] && grep -q "$2" "$folder/error" || fail "$1: status $status, output: $(cat "$folder/out" "$folder/error")"
    passed=$((passed + 1))
}
"$claims" <examples >"$folder/out" 2>"$folder/error" && status=0 || status=$?
ends 'a folder as standard input' IsADirectory
: >"$folder/out"
"$claims" <$sheet >/dev/full 2>"$folder/error" && status=0 || status=$?
ends 'a full disk' StorageFull

# The sheets with faults that cannot be seen, repaired as docs/SHEETS.md says, are the good one.
rooted=examples/sheets/rooted.sheet
tr -d '\r' <examples/sheets/crlf.sheet | cmp - $rooted
tail -c +4 examples/sheets/bom.sheet | cmp - $rooted
tr ' ' '\t' <examples/sheets/spaces.sheet | cmp - $rooted
{ cat examples/sheets/no-end.sheet; printf 'end\t2\n'; } | cmp - $rooted
passed=$((passed + 4))

# A sheet in the form of before version 0.4.0, without the leading 1, is refused as 13; what CHANGES.md says brings it into the form with the 1.
renew=$(sed -n '/^```sh$/,/^```$/p' CHANGES.md | sed '1d;$d')
for stored in rooted other-r; do
    awk -F'\t' -v OFS='\t' '
        $1 == "size" { m = $2; $3-- }
        /^[abc]\t/ { $3-- }
        $1 == "item" { $(m + 3) = ""; sub(/\t\t/, "\t") }
        { print }' examples/sheets/$stored.sheet >"$folder/OLD"
    expect "$stored in the old form" $'refused\t13' <"$folder/OLD"
    (cd "$folder" && bash -c "$renew") && cmp "$folder/NEW" examples/sheets/$stored.sheet || fail "$stored is another sheet in the form with the 1"
    passed=$((passed + 1))
done

# ---- The script: what the program prints, on a file and on standard input, and an exit status
make -s claims
script=target/claims
status_of() { # status_of LISTING
    case $1 in
    refused*) echo 3 ;;
    *differs*) echo 1 ;;
    *) echo 0 ;;
    esac
}
as_user=(env)
runs() { # runs STATUS OUTPUT ARGUMENT...: on standard input
    local status=0
    "${as_user[@]}" "$script" "${@:3}" >"$folder/out" 2>"$folder/error" || status=$?
    [ "$status" = "$1" ] && [ "$(cat "$folder/out")" = "$2" ] || fail "target/claims ${*:3}: status $status, output: $(cat "$folder/out" "$folder/error")"
    passed=$((passed + 1))
}
says() { grep -qF -- "$1" "$folder/error" || fail "target/claims does not say '$1': $(cat "$folder/error")"; }
for stored in examples/sheets/*.sheet; do
    listing_of=$(cat "${stored%.sheet}.listing")
    runs "$(status_of "$listing_of")" "$listing_of" "$stored" </dev/null
    runs "$(status_of "$listing_of")" "$listing_of" <"$stored"
done
for status in 0 1 3; do # the stored sheets have each of them
    [[ " $(for stored in examples/sheets/*.listing; do status_of "$(cat "$stored")"; done | tr '\n' ' ') " == *" $status "* ]] || fail "no stored sheet ends with $status"
done
runs 1 "$listing" - <$sheet
mkdir "$folder/a folder"
cp examples/sheets/rooted.sheet "$folder/a folder/-a sheet"
runs 0 "$(cat examples/sheets/rooted.listing)" "$folder/a folder/-a sheet"
(cd "$folder/a folder" && "$OLDPWD/$script" -- '-a sheet') | diff examples/sheets/rooted.listing - || fail 'a name with a hyphen'
runs 3 $'refused\t1' <(head -c 100000000 /dev/zero 2>/dev/null)
runs 2 '' /nothing/there
says '/nothing/there is not there'
runs 2 '' examples
says 'examples is a folder'
runs 2 '' $sheet $sheet
says 'claims --help'
runs 2 '' --all
says 'there is no option --all'
for option in -h --help; do runs 0 "$("$script" -h)" $option; done
[[ "$("$script" -h)" == 'usage: claims [FILE]'*'Exit status: 0 '* ]] || fail 'claims --help'
! "$script" examples/sheets/refused-1.sheet >/dev/null || fail 'claims BAD && ship goes on'
"$script" $sheet >&- 2>/dev/null && status=0 || status=$?
[ "$status" = 4 ] || fail "a closed output: status $status"

# A program in the place of the proved one: that is not there, that fails, that writes something else.
instead() { # instead TEXT: a script whose program prints it
    { printf '#!/bin/sh\nprogram=%s\n' "'$folder/instead'"; sed 1d make/claims.in; } >"$folder/script"
    printf '#!/bin/sh\nprintf "%s"\n' "$1" >"$folder/instead"
    chmod 755 "$folder/script" "$folder/instead"
    script=$folder/script
}
instead 'claims\t1\n0\t5\t5\tholds\n' # the control
runs 0 $'claims\t1\n0\t5\t5\tholds' $sheet

# A file that cannot be read. The superuser reads every one, and so becomes another user.
if [ "$(id -u)" = 0 ]; then
    needs setpriv
    as_user=(setpriv --reuid=65534 --regid=65534 --clear-groups)
    chmod 755 "$folder"
fi
cp $sheet "$folder/open" && chmod 644 "$folder/open"
runs 0 $'claims\t1\n0\t5\t5\tholds' "$folder/open"
cp $sheet "$folder/closed" && chmod 000 "$folder/closed"
runs 2 '' "$folder/closed"
says "$folder/closed cannot be read"
as_user=(env)

for text in '' 'hello\n' 'claims\t2\n0\t0\t0\tholds\n' 'claims\t0\n' 'claims\t1\n0\t0\t0\tmaybe\n' 'claims\t1\n1\t0\t0\tholds\n' 'claims\t1\n0\t1\t0\tholds\n' \
    'claims\t1\n0\t0\t0\tdiffers\n' 'refused\n' 'refused\t1\n0\t0\t0\tholds\n' 'claims\t1\n0\t0\tholds\n'; do
    instead "$text"
    runs 4 '' $sheet
    says 'did not write a listing'
done
printf '#!/bin/sh\nexit 3\n' >"$folder/instead"
runs 4 '' $sheet
says 'ended with status 3'
rm "$folder/instead"
runs 4 '' $sheet
says "the proved program is not there: $folder/instead"

# ---- The root of a witness, and what the program says to other arguments.
refuses() { # refuses STATUS ARGUMENT...
    local status=0
    "$root" "${@:2}" >"$folder/out" 2>/dev/null || status=$?
    [ "$status" = "$1" ] && [ ! -s "$folder/out" ] || fail "root ${*:2}: status $status"
    passed=$((passed + 1))
}
refuses 1 2 3 4             # no power of two
refuses 1 2 2013265921      # p
refuses 2
refuses 2 2 -3
refuses 2 2 4294967296
refuses 2 $(seq 65)

# Every command of docs/SHEETS.md, with what stands below it. A block of commands is followed by a block of output; the programs are those tested here.
pages=0
while IFS= read -r -d '' commands && IFS= read -r -d '' output; do
    commands=$(sed "/^make /d; s|target/root|'$root'|" <<<"$commands")
    [ "$(bash -c "$commands")" = "$output" ] || fail "docs/SHEETS.md has another output of: $commands"
    pages=$((pages + 1))
done < <(blocks_of docs/SHEETS.md)
[ "$pages" -ge 11 ] || fail "docs/SHEETS.md: $pages commands found"
passed=$((passed + pages))
echo "claims: $passed runs as expected"
