# Reads the description of the calls (rust/calls/calls.txt says how it is written), and has a writer write it: the function `write` of a second file.
#
#   awk -f make/calls.awk -f WRITER.awk rust/calls/calls.txt
#
# A line that starts with another word than those known is passed over. A malformed one is an error: it is named, and nothing is written.
#
# What a writer finds, each from 1 on:
#
#   layouts, layout[i]                      the names of records
#   fields[name], field[name, i]            those of a record, and field_at[name, i], where each starts, as an expression of C
#   parts, part[i]                          the names of what buffers hold
#   kind[name]                              of a part: EXACT, OR_EMPTY, UP_TO or NUMBERS
#   length_in_c[name]                       of a record or part: its length in C, over s->m and so on; of UP_TO that of one thing
#   most[name]                              of UP_TO: how many things at most
#   record[name]                            of a part: the record that its length is over, or nothing
#   numbers, number[i]                      the names of the numbers that calls take
#   calls, call[i], bits[i]                 the names of the calls, and the width of what each returns
#   taken[i], takes[i, j]                   the numbers of a call
#   read[i], written[i], buffers[i]         how many buffers a call reads and writes, and both together
#   buffer[i, j], holds[i, j]               a buffer's name and part, those that are read first
#   checked[i], checks[i, j]                the checks of a call

function fail(what) {
    printf "%s:%d: %s: %s\n", FILENAME, FNR, what, $0 >"/dev/stderr"
    failed = 1
    exit 1
}

function is_name(text) { return text ~ /^[a-z][a-z0-9_]*$/ }

function trimmed(text) {
    gsub(/^[ \t]+|[ \t]+$/, "", text)
    return text
}

# The text behind the line's first word, or behind `NAME =`.
function behind_word(text) {
    sub(/^[ \t]*[a-z]+[ \t]+/, "", text)
    return trimmed(text)
}

function behind_equals(text) {
    if (text !~ /=/) fail("no = stands here")
    sub(/^[^=]*=/, "", text)
    return trimmed(text)
}

# ---- Formulas

# A name of a formula, in C.
function operand(name) {
    if (name == "depth") {
        needed["k"] = 1
        return "depth_of(s->k)"
    }
    if (name in length_in_c) {
        if (name in kind && kind[name] != "EXACT") fail("the length of " name " is not fixed")
        if (name in record && record[name] != "") over = record[name]
        if (!(name in kind)) over = name
        add_needs(name)
        return "(" length_in_c[name] ")"
    }
    if (name !~ /^(m|n|k|l|t)$/) fail("'" name "' is no size and no name above")
    needed[name] = 1
    return "s->" name
}

function add_needs(name,    i, count, list) {
    count = split(needs[name], list, " ")
    for (i = 1; i <= count; i++) needed[list[i]] = 1
}

# A formula in C. What it needs is left in `needed`, and the record that it is over in `over`.
function in_c(formula,    open, ready, token, result) {
    if (formula == "") fail("a length is missing")
    while (formula != "") {
        if (match(formula, /^[ \t]+/)) token = ""
        else if (match(formula, /^[0-9]+/) || match(formula, /^[a-z][a-z0-9_]*/) || match(formula, /^[-+*()]/)) token = substr(formula, 1, RLENGTH)
        else fail("'" substr(formula, 1, 1) "' has no place in a length")
        formula = substr(formula, RLENGTH + 1)
        if (token == "") continue
        if (token ~ /^[-+*)]$/ ? !ready : ready) fail("'" token "' has no place here")
        if (token == "(") open++
        if (token == ")" && --open < 0) fail("a parenthesis is closed that is not open")
        ready = token ~ /^[0-9a-z)]/
        result = result (token ~ /^[0-9]/ ? token "u" : token ~ /^[a-z]/ ? operand(token) : token ~ /^[-+*]$/ ? " " token " " : token)
    }
    if (!ready || open > 0) fail("a length ends too early")
    return result
}

function start_formula() {
    split("", needed)
    over = ""
}

function keep_needs(name,    i) {
    needs[name] = ""
    for (i in needed) needs[name] = needs[name] " " i
}

# ---- Layouts and parts

function new_name(name) {
    if (!is_name(name)) fail("'" name "' is no name")
    if (name in length_in_c || name ~ /^(m|n|k|l|t|depth)$/) fail("'" name "' has a meaning already")
}

$1 == "layout" {
    new_name($2)
    start_formula()
    count = split(behind_equals($0), list, /,/)
    at = ""
    for (i = 1; i <= count; i++) {
        text = trimmed(list[i])
        name = text
        sub(/[ \t].*/, "", name)
        sub(/^[^ \t]+[ \t]*/, "", text)
        if (!is_name(name)) fail("a field has no name")
        field[$2, i] = name
        field_at[$2, i] = at == "" ? "0u" : at
        at = (at == "" ? "" : at " + ") in_c(text)
    }
    fields[$2] = count
    keep_needs($2)
    layout[++layouts] = $2
    length_in_c[$2] = at
}

$1 == "part" {
    new_name($2)
    start_formula()
    text = behind_equals($0)
    of_kind = "EXACT"
    if (sub(/^0 or /, "", text)) of_kind = "OR_EMPTY"
    else if (match(text, /^up to [0-9]+ times /)) {
        of_kind = "UP_TO"
        split(text, list, " ")
        most[$2] = list[3]
        text = substr(text, RLENGTH + 1)
    } else if (sub(/ numbers$/, "", text)) {
        of_kind = "NUMBERS"
        if (text !~ /^[0-9]+$/) fail("the count of numbers is no number")
        count_of[$2] = text
        text = text "*4"
    }
    length_in_c[$2] = in_c(text)
    kind[$2] = of_kind
    record[$2] = over
    keep_needs($2)
    part[++parts] = $2
}

# ---- Calls

$1 == "call" {
    if (!is_name($2) || $2 in number_of_call) fail("the call has no name, or that of another")
    if ($3 != "->" || $4 !~ /^(32|64)$/ || NF != 4) fail("a call is `call NAME -> 32`, or 64")
    end_call()
    call[++calls] = $2
    number_of_call[$2] = calls
    bits[calls] = $4
    split("", has)
}

# A property of the last call, which it has once.
function property() {
    if (calls == 0) fail("there is no call above")
    if ($1 in has) fail("the call has such a line above")
    has[$1] = 1
}

$1 == "takes" {
    property()
    if (NF == 1) fail("no number stands here")
    for (i = 2; i <= NF; i++) {
        if (!is_name($i) || (calls, $i) in takes_it) fail("'" $i "' is no number, or stands twice")
        takes_it[calls, $i] = 1
        takes[calls, ++taken[calls]] = $i
        if (!($i in known)) number[++numbers] = $i
        known[$i] = 1
    }
}

function add_buffers(    i, count, pair) {
    count = split(behind_word($0), list, /,/)
    for (i = 1; i <= count; i++) {
        if (split(list[i], pair, /:/) != 2) fail("a buffer is NAME: PART")
        name = trimmed(pair[1])
        text = trimmed(pair[2])
        if (!is_name(name) || (calls, name) in named) fail("'" name "' is no name, or stands twice")
        if (!(text in kind)) fail("there is no part '" text "' above")
        check_needs(text)
        named[calls, name] = 1
        buffer[calls, ++buffers[calls]] = name
        holds[calls, buffers[calls]] = text
    }
    return count
}

function check_needs(name,    i, count, list) {
    count = split(needs[name], list, " ")
    for (i = 1; i <= count; i++) {
        if (!((calls, list[i]) in takes_it)) fail("the length of " name " is over " list[i] ", which the call does not take")
    }
}

$1 == "reads" {
    property()
    if ("writes" in has) fail("what is read stands before what is written")
    read[calls] = add_buffers()
}

$1 == "writes" {
    property()
    written[calls] = add_buffers()
}

$1 == "checks" {
    property()
    if (NF == 1) fail("no check stands here")
    for (i = 2; i <= NF; i++) {
        if ($i !~ /^[1-9][0-9]*$/ || (calls, $i) in runs_it) fail("'" $i "' is no check, or stands twice")
        runs_it[calls, $i] = 1
        checks[calls, ++checked[calls]] = $i
    }
}

# What every call has, at the line behind it.
function end_call() {
    if (calls == 0) return
    if (!("reads" in has)) fail("the call above, " call[calls] ", reads no buffer")
    if (!("checks" in has)) fail("the call above, " call[calls] ", runs no check")
}

END {
    if (failed) exit 1
    end_call()
    if (calls == 0) fail("no call was found")
    write()
}
