# Writes the description that make/calls.awk reads as a header of C and C++, for programs that go through all calls: tests and fuzz targets.

function say(text) { print text }

# "PART_ITEMS" for "PART" and "items".
function constant(prefix, name) { return prefix "_" toupper(name) }

function write() {
    count_most()
    write_types()
    write_numbers()
    write_parts()
    write_layouts()
    write_runs()
    write_calls()
    say("#endif")
}

function greater(a, b) { return a > b ? a : b }

function count_most(    i) {
    for (i = 1; i <= calls; i++) {
        most_numbers = greater(most_numbers, taken[i] + 0)
        most_inputs = greater(most_inputs, read[i] + 0)
        most_outputs = greater(most_outputs, written[i] + 0)
        most_checks = greater(most_checks, checked[i])
    }
}

function write_types(    i, names) {
    say("/* Written by make/calls.sh from rust/calls/calls.txt. */")
    say("#ifndef CALLS_H")
    say("#define CALLS_H")
    say("")
    say("#include \"lomvuze.h\"")
    say("")
    say("enum { MOST_NUMBERS = " most_numbers ", MOST_INPUTS = " most_inputs ", MOST_OUTPUTS = " most_outputs ", MOST_CHECKS = " most_checks " };")
    say("enum { MOST_BUFFERS = MOST_INPUTS + MOST_OUTPUTS };")
    say("")
    for (i = 1; i <= numbers; i++) names = names (i > 1 ? ", " : "") number[i]
    say("/* The numbers of a call. */")
    say("struct sizes {")
    say("  uint32_t " names ";")
    say("};")
    say("")
    say("struct buffer {")
    say("  uint8_t *bytes;")
    say("  size_t length;")
    say("};")
    say("")
    say("/* What a call is made with: the buffers that it reads and those that it writes, each in its order. */")
    say("struct call {")
    say("  struct sizes sizes;")
    say("  struct buffer in[MOST_INPUTS], out[MOST_OUTPUTS];")
    say("};")
    say("")
    say("/* log2(4k), from the last bits of k alone: those of 2^30 more are the same. */")
    say("static inline uint32_t depth_of(uint32_t k) {")
    say("  uint32_t depth = 2;")
    say("  for (k &= 0xff; k > 1; k /= 2) depth++;")
    say("  return depth;")
    say("}")
    say("")
}

# An enum of names, from the first on; where there is a name for none, it is 0.
function write_enum(what, prefix, none, names, count,    i) {
    say("enum " what " {")
    if (none != "") say("  " constant(prefix, none) ",")
    for (i = 1; i <= count; i++) say("  " constant(prefix, names[i]) ",")
    say("};")
    say("")
}

# A function of one enumerator, as a switch without default: where one is missing, the compiler says so. `value` and `last` are text of C.
function start_switch(comment, result, name, what, rest) {
    say("/* " comment " */")
    say("static inline " result name "(enum " what " " what rest ") {")
    say("  switch (" what ") {")
}

function end_switch(last) {
    say("  }")
    say("  return " last ";")
    say("}")
    say("")
}

function write_numbers(    i) {
    write_enum("number", "NUMBER", "end", number, numbers)
    start_switch("A number of a call.", "uint32_t *", "number_of", "number", ", struct sizes *s")
    for (i = 1; i <= numbers; i++) say("    case " constant("NUMBER", number[i]) ": return &s->" number[i] ";")
    say("    case NUMBER_END: break;")
    end_switch("NULL")
}

function write_parts(    i) {
    say("/* The records that follow one another in a part. */")
    write_enum("layout", "LAYOUT", "none", layout, layouts)
    say("/* What a buffer holds. */")
    write_enum("part", "PART", "end", part, parts)
    start_switch("The length in bytes that numbers give, modulo 2^32, also where they are not permitted; of UP_TO that of one thing.", \
        "uint32_t ", "length_of", "part", ", const struct sizes *s")
    for (i = 1; i <= parts; i++) say("    case " constant("PART", part[i]) ": return " length_in_c[part[i]] ";")
    say("    case PART_END: break;")
    end_switch("0")
    write_part_table()
}

function write_part_table(    i, name) {
    say("/* A length: fixed by the numbers; that or none; any count of things up to a greatest one; numbers in the machine's order, without a length. */")
    say("enum kind { EXACT, OR_EMPTY, UP_TO, NUMBERS };")
    say("")
    say("static const struct described_part {")
    say("  const char *name;")
    say("  enum kind kind;")
    say("  uint32_t most; /* things of UP_TO; else 1 */")
    say("  enum layout layout;")
    say("} described_parts[] = {")
    say("    {\"end\", EXACT, 0, LAYOUT_NONE},")
    for (i = 1; i <= parts; i++) {
        name = part[i]
        say("    {\"" name "\", " kind[name] ", " (kind[name] == "UP_TO" ? most[name] : 1) ", " \
            constant("LAYOUT", record[name] == "" ? "none" : record[name]) "},")
    }
    say("};")
    say("")
}

function write_layouts(    i, j, name) {
    for (i = 1; i <= layouts; i++) {
        name = layout[i]
        say("/* The length of " name ", and where its fields start. */")
        say("static inline uint32_t " name "_length(const struct sizes *s) { return " length_in_c[name] "; }")
        for (j = 1; j <= fields[name]; j++) {
            say("static inline uint32_t " name "_" field[name, j] "(const struct sizes *s) { return (void)s, " field_at[name, j] "; }")
        }
        say("")
    }
}

# ---- The calls

function write_runs(    i, j, text, place) {
    for (i = 1; i <= calls; i++) {
        text = ""
        for (j = 1; j <= taken[i]; j++) text = text ", c->sizes." takes[i, j]
        for (j = 1; j <= buffers[i]; j++) {
            place = j <= read[i] ? "c->in[" j - 1 "]" : "c->out[" j - 1 - read[i] "]"
            text = text ", " argument(kind[holds[i, j]], place)
        }
        say("static inline uint64_t run_" call[i] "(const struct call *c) {")
        say("  return lomvuze_" call[i] "(" substr(text, 3) ");")
        say("}")
        say("")
    }
}

function argument(of_kind, place) {
    return of_kind == "NUMBERS" ? "LOMVUZE_AS(uint32_t *, LOMVUZE_AS(void *, " place ".bytes))" : place ".bytes, " place ".length"
}

function write_calls(    i, j, inputs, outputs, names, all, list) {
    write_enum("which_call", "CALL", "", call, calls)
    say("enum { CALL_COUNT = " calls " };")
    say("")
    say("struct described_call {")
    say("  const char *name;")
    say("  size_t number_count, input_count, output_count;")
    say("  enum number numbers[MOST_NUMBERS + 1];                        /* in the call's order, as all that follow; NUMBER_END follows */")
    say("  enum part inputs[MOST_INPUTS + 1], outputs[MOST_OUTPUTS + 1]; /* PART_END follows */")
    say("  uint32_t checks[MOST_CHECKS + 1];                             /* 0 follows */")
    say("  uint64_t (*run)(const struct call *call);                     /* makes the call */")
    say("};")
    say("")
    say("static const struct described_call described_calls[CALL_COUNT] = {")
    for (i = 1; i <= calls; i++) {
        inputs = outputs = names = all = ""
        for (j = 1; j <= taken[i]; j++) names = names constant("NUMBER", takes[i, j]) ", "
        for (j = 1; j <= read[i]; j++) inputs = inputs constant("PART", holds[i, j]) ", "
        for (; j <= buffers[i]; j++) outputs = outputs constant("PART", holds[i, j]) ", "
        for (j = 1; j <= checked[i]; j++) all = all checks[i, j] ", "
        say("    {\"" call[i] "\", " taken[i] + 0 ", " read[i] + 0 ", " written[i] + 0 ",")
        say("     {" names "NUMBER_END}, {" inputs "PART_END}, {" outputs "PART_END}, {" all "0}, run_" call[i] "},")
    }
    say("};")
    say("")
}
