# What tests/examples.sh and tests/collect.sh share: builds the C examples, and runs them on stored files and on damaged copies (tests/c/spoil.c). To be
# sourced behind tests/common.sh, with the programs' sources. The programs are run by the command that LOMVUZE_RUN gives, if any (tests/valgrind.sh).
make -s all
library=target/liblomvuze.a
temporary
for source in "$@"; do
    cc -std=c11 -O2 -Wall -Wextra -Wpedantic -Wconversion -Wsign-conversion -Werror -Iinclude -o "$folder/$(basename $source .c)" $source $library
done
agreed=examples/c/agreed.circuit
damaged=$folder/damaged.bin

# Runs a command, the program and its arguments: its exit status and its output are as expected.
expect() { # expect STATUS OUTPUT PROGRAM ARGUMENT...
    local got code
    got=$(${LOMVUZE_RUN:-} "$folder/$3" "${@:4}" 2>"$folder/error") && code=0 || code=$?
    [ "$code" = "$1" ] && [ "$got" = "$2" ] || fail "${*:3}: status $code, output:"$'\n'"$got"
    passed=$((passed + 1))
}
# The same where a file cannot be used: it says which one, and why.
unusable() { # unusable TEXT PROGRAM ARGUMENT...
    expect 2 '' "${@:2}"
    grep -qF -- "$1" "$folder/error" || fail "${*:2}: it does not say '$1', but: $(cat "$folder/error")"
}
# Runs fold_batch or verify_batch on the damaged file, with the agreed circuit.
after() { expect "$1" "$2" "$3" $agreed "$damaged"; } # after STATUS OUTPUT PROGRAM

# A copy of a stored file with one number changed.
damage() { # damage FILE PART... VALUE
    cp "examples/c/$1" "$damaged"
    "$folder/spoil" "$damaged" "${@:2}"
}

# The page of the examples shows an output.
shown_as() { shows examples/c/README.md "$2" "output of $1"; }

lines() { sed -n "$1" examples/c/fold_batch.expected; } # lines of the output of fold_batch that are as they should be
circuit=$(lines 1p)
none='refused: nothing is shown about any item'
