# Writes the description that make/calls.awk reads as lists, for scripts. `which` is a word of make/calls.sh.

function write(    i, j) {
    for (i = 1; i <= calls; i++) {
        if (which == "names") print call[i]
        if (which == "prototypes") write_prototype(i)
        if (which == "checks") {
            printf "%s", call[i]
            for (j = 1; j <= checked[i]; j++) printf " %d", checks[i, j]
            print ""
        }
        for (j = 1; which == "buffers" && j <= buffers[i]; j++) print call[i], j <= read[i] ? "reads" : "writes", buffer[i, j], holds[i, j]
    }
}

function say(i, text) { printf "lomvuze_%s %02d %s\n", call[i], line++, text }

function write_prototype(i,    j, name, of_kind) {
    line = 0
    say(i, "returns uint" bits[i] "_t")
    for (j = 1; j <= taken[i]; j++) say(i, "uint32_t " takes[i, j])
    for (j = 1; j <= buffers[i]; j++) {
        name = buffer[i, j]
        of_kind = kind[holds[i, j]]
        if (of_kind == "NUMBERS") say(i, (j <= read[i] ? "const " : "") "uint32_t " name "[" count_of[holds[i, j]] "]")
        else {
            say(i, (j <= read[i] ? "const " : "") "uint8_t *" name)
            say(i, "size_t " name "_len")
        }
    }
}
