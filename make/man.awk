# The man page of one call, from its prototype and comment in the header:
#
#   awk -v call=lomvuze_fold -f make/man.awk docs/man/lomvuze.3 include/lomvuze.h
#
# The date is that of lomvuze.3. A comment has paragraphs: what the call does, its buffers (indented lines, a name and what it has), `Returns ..`,
# `Checks ..: NAME, NAME.` in the order in which they are run, and `Stack: .. bytes.`. What an answer means is the comment in the enum.

/^\.Dd / { date = $0 }

# ---- The answers: names with numbers and meanings
/^enum lomvuze_answer/ { answers = 1 }
answers && /^};/ { answers = 0 }
answers && /^ *(\/\*|\*)/ {
    text = $0
    gsub(/^ *\/?\*+ *| *\*\/$/, "", text)
    meaning = meaning (meaning == "" ? "" : " ") text
}
answers && / = [0-9]/ {
    number[$1] = $3 + 0
    means[$1] = meaning
    meaning = ""
}

# ---- The last comment, by paragraphs: those with indented lines keep their lines
!answers && /^\/\*/ { count = 0; fresh = 1; next }
!answers && /^ \*$/ { fresh = 1 }
!answers && /^ \* / {
    text = substr($0, 4)
    if (fresh) paragraph[++count] = text
    else paragraph[count] = paragraph[count] (paragraph[count] ~ /^ / ? "\n" : " ") text
    fresh = 0
}

# ---- The prototype
index($0, " " call "(") || index($0, " *" call "(") { if (/^(uint|const char)/) inside = 1 }
inside { prototype = prototype $0 " " }
inside && /;/ { page(); found = 1; exit }
END {
    if (!found) {
        print "man.awk: the header declares no " call > "/dev/stderr"
        exit 1
    }
}

# A line of text: quoted words, no hyphens in names, and no dot or quote at its start.
function line(text) {
    while (match(text, /`[^`]*`/)) text = substr(text, 1, RSTART - 1) "\\(oq" substr(text, RSTART + 1, RLENGTH - 2) "\\(cq" substr(text, RSTART + RLENGTH)
    gsub(/ - /, " \\- ", text)
    gsub(/LOMVUZE_|lomvuze_/, "\\%&", text)
    gsub(/docs\//, "\\%share/doc/lomvuze/docs/", text)
    sub(/^[.']/, "\\\\\\&&", text)
    print text
}
function lower(text) { return tolower(substr(text, 1, 1)) substr(text, 2) }

function page(   i, first, type, parameters, returns, checks, stack) {
    first = paragraph[1]
    sub(/[.] .*|[.]$/, "", first)
    sub(/ \(docs[^)]*\)/, "", first)
    print date "\n.Dt " toupper(call) " 3\n.Os Lomvuze\n.Sh NAME\n.Nm " call "\n.Nd " lower(first)
    synopsis()
    print ".Sh DESCRIPTION\n.Fn " call
    line(lower(paragraph[1]))
    for (i = 2; i <= count; i++) {
        if (paragraph[i] ~ /^Returns /) returns = paragraph[i]
        else if (paragraph[i] ~ /^Checks/) checks = paragraph[i]
        else if (paragraph[i] ~ /^Stack: /) stack = paragraph[i]
        else if (paragraph[i] ~ /^ /) buffers(paragraph[i])
        else { print ".Pp"; line(paragraph[i]) }
    }
    if (stack != "") {
        sub(/[.]$/, ", the deepest that was measured at the greatest sizes, arguments included, rounded up.", stack)
        print ".Pp"
        line(stack)
    }
    values(returns, checks)
    print ".Sh SEE ALSO\n.Xr lomvuze 3"
}

function synopsis(   type, parameters, parameter, i) {
    type = prototype
    sub(/lomvuze_.*/, "", type)
    sub(/ $/, "", type)
    parameters = prototype
    gsub(/^[^(]*\(|\);.*/, "", parameters)
    gsub(/  +/, " ", parameters)
    print ".Sh SYNOPSIS\n.In lomvuze.h\n.Ft \"" type "\"\n.Fo " call
    parameters = split(parameters, parameter, /, */)
    for (i = 1; i <= parameters; i++) print ".Fa \"" parameter[i] "\""
    print ".Fc"
}

# A name, two spaces or more, and what it has; lines that are indented further go on with it.
function buffers(text,   lines, part, i, at, width) {
    lines = split(text, part, "\n")
    for (i = 1; i <= lines; i++) {
        sub(/^   ?/, "", part[i])
        if (part[i] ~ /^[^ ]/ && (at = match(part[i], /  +/)) > width) width = at
    }
    print ".Pp\nArguments beside the sizes, buffers with their lengths in bytes:\n.Pp\n.Bl -tag -width " substr("xxxxxxxxxxxxxxxxxxxxxxxxxxxx", 1, width) " -compact"
    for (i = 1; i <= lines; i++) {
        if (part[i] ~ /^[^ ]/) {
            at = match(part[i], /  +/)
            print ".It Fa \"" substr(part[i], 1, at - 1) "\""
        }
        sub(/^([^ ]| [^ ])*  +|^ +/, "", part[i])
        line(part[i])
    }
    print ".El"
}

# What is returned, and the checks with their numbers, in their order.
function values(returns, checks,   names, name, i, rest) {
    print ".Sh RETURN VALUES"
    if (returns != "") line(returns)
    if (checks == "") return
    if (returns != "") print ".Pp"
    rest = checks
    sub(/^[^:]*: /, "", checks)
    sub(/[.].*/, "", checks)
    sub(/^[^.]*[.] */, "", rest)
    line("The verdict is 0, or the number of the first of these checks that fails, in this order; then nothing is written.")
    print ".Pp\n.Bl -tag -width \"13 LOMVUZE_FIRST_INPUT\" -compact"
    names = split(checks, name, /, */)
    for (i = 1; i <= names; i++) {
        if (!(name[i] in number)) {
            print "man.awk: the enum has no " name[i] > "/dev/stderr"
            exit 1
        }
        print ".It " number[name[i]] " Dv " name[i]
        line(means[name[i]])
    }
    print ".El"
    if (rest != "") { print ".Pp"; line(rest) }
}
