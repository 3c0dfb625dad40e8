# Reads include/lomvuze.h. With which=prototypes it writes each prototype that returns a number, as make/calls.sh prototypes does: the call, a number, and
# what is returned, or a parameter. With which=checks it writes the call and the checks that the comment before it lists: the names behind the word Checks,
# up to the first full stop, as numbers of enum lomvuze_answer. Attributes may stand before a prototype and behind it.

# A comment is kept for the statement that follows it.
in_comment || /^[ \t]*\/\*/ {
    if (!in_comment) comment = ""
    comment = comment " " $0
    in_comment = $0 !~ /\*\//
    next
}

# Directives, with the lines that they go on in.
in_directive || /^[ \t]*#/ {
    in_directive = $0 ~ /\\$/
    next
}

{
    gsub(/\/\*.*\*\//, "")
    if (match($0, /LOMVUZE_[A-Z_]+ = [0-9]+/)) {
        split(substr($0, RSTART, RLENGTH), answer, / = /)
        number[answer[1]] = answer[2]
    }
    statement = statement " " $0
    if (statement ~ /[{}]/) statement = ""
    if (statement !~ /;/) next
    gsub(/[ \t]+/, " ", statement)
    if (match(statement, /[a-z0-9_]+ lomvuze_[a-z0-9_]+\([^)]*\)/) && statement !~ /return/) add(substr(statement, RSTART, RLENGTH))
    statement = comment = ""
}

function add(prototype,    i, count, list) {
    calls++
    split(prototype, list, /[ (]/)
    name[calls] = list[2]
    said[calls] = comment
    text[calls] = sprintf("%s %02d returns %s\n", list[2], 0, list[1])
    sub(/^[^(]*\(/, "", prototype)
    sub(/\)$/, "", prototype)
    count = split(prototype, list, /, */)
    for (i = 1; i <= count; i++) text[calls] = text[calls] sprintf("%s %02d %s\n", name[calls], i, list[i])
}

# " 2 3 12" of a comment.
function checks_of(said,    result, check) {
    if (!match(said, /Checks[^.]*\./)) return " none"
    said = substr(said, RSTART, RLENGTH)
    while (match(said, /LOMVUZE_[A-Z_]+/)) {
        check = substr(said, RSTART, RLENGTH)
        result = result " " (check in number ? number[check] : check)
        said = substr(said, RSTART + RLENGTH)
    }
    return result
}

END {
    for (i = 1; i <= calls; i++) {
        if (which == "prototypes") printf "%s", text[i]
        else print substr(name[i], length("lomvuze_") + 1) checks_of(said[i])
    }
}
