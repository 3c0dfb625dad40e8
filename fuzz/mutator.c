/*
 * Changes an input by its structure: libFuzzer does not see the library's code, so that inputs of random changes would stop at check 2. A change
 * is to a number, to the choice of points, to a buffer's length or, mostly, to the contents of a buffer, each buffer as often as any other. First
 * inputs are mostly made 1 again after it, since items of other sizes have other numbers there.
 */
#include "target.h"

static struct input input;

/* Part of libFuzzer. Changes bytes in ways that suit text, and takes words from a dictionary. */
size_t LLVMFuzzerMutate(uint8_t *data, size_t size, size_t most);

/* ---- Random numbers: Marsaglia's xorshift64* */

static uint64_t state;

static uint32_t bits(void) {
  state ^= state >> 12;
  state ^= state << 25;
  state ^= state >> 27;
  return (uint32_t)(state * UINT64_C(0x2545f4914f6cdd1d) >> 32);
}

static size_t below(size_t n) { return bits() % n; }

/* A number at which some check turns, or any. */
static uint32_t edge(void) {
  const struct sizes *s = &input.sizes;
  const uint32_t edges[] = {0, 1, s->l - 1, s->l, 4 * s->k - 1, 4 * s->k, UINT32_C(1) << (s->m & 31), s->n + s->k, LOMVUZE_P - 1, LOMVUZE_P,
                            UINT32_C(1) << 31, UINT32_MAX, (uint32_t)below(300), bits()};
  return edges[below(sizeof edges / sizeof edges[0])];
}

/* ---- Numbers and lengths */

/* Gives the buffers their lengths. One that grows repeats what it held, so that a list of items goes on with its first ones. */
static void refit(void) {
  size_t old[MOST_BUFFERS];
  memcpy(old, input.lengths, sizeof old);
  cut(&input);
  for (size_t i = 0; i < input_count(); i++) {
    for (size_t j = old[i]; j < input.lengths[i]; j++) input.contents[i][j] = old[i] > 0 ? input.contents[i][j - old[i]] : 0;
  }
}

static uint32_t permitted_challenge(void) {
  const uint32_t challenges[] = {input.sizes.l, LOMVUZE_P - 1, LOMVUZE_MAX_L + (uint32_t)below(LOMVUZE_P - LOMVUZE_MAX_L)};
  return challenges[below(sizeof challenges / sizeof challenges[0])];
}

static uint32_t permitted_number(enum number number) {
  size_t k = LOMVUZE_IS_K(input.sizes.k) ? input.sizes.k : LOMVUZE_MAX_K;
  switch (number) {
    case NUMBER_M: return (uint32_t)below(LOMVUZE_MAX_M + 1);
    case NUMBER_N: return LOMVUZE_MIN_N + (uint32_t)below(LOMVUZE_MAX_N);
    case NUMBER_K: return UINT32_C(2) << below(6);
    case NUMBER_L: return LOMVUZE_MIN_L + (uint32_t)below(LOMVUZE_MAX_L);
    case NUMBER_T: return LOMVUZE_MIN_T + (uint32_t)below(4 * k);
    case NUMBER_CHALLENGE: return permitted_challenge();
    case NUMBER_END: break;
  }
  return 0;
}

/* Makes numbers and lengths pass check 2 again. */
static void mend(void) {
  for (size_t i = 0; i < target.call->number_count; i++) {
    enum number number = target.call->numbers[i];
    uint32_t *value = number_of(number, &input.sizes);
    if (!permitted(*value, number, input.sizes.k)) *value = permitted_number(number);
  }
  for (size_t i = 0; i < buffer_count(); i++) {
    if (part_of(i) == PART_SHEET) continue;
    size_t each = length_of(part_of(i), &input.sizes), most = described_parts[part_of(i)].most, count = each > 0 ? input.lengths[i] / each : 0;
    input.more[i] = kind_at(i) == UP_TO ? (int32_t)((count < most ? count : most) * each) : 0;
  }
  refit();
}

static void change_number(void) {
  size_t count = target.call->number_count;
  if (count == 0) return;
  enum number which = target.call->numbers[below(count)];
  uint32_t *number = number_of(which, &input.sizes), *other = number_of(target.call->numbers[below(count)], &input.sizes), old = *number;
  switch (below(6)) {
    case 0: *number = old + 1; break;
    case 1: *number = old - 1; break;
    case 2: *number = old + (UINT32_C(1) << 30); break; /* the same lengths, modulo 2^32 */
    case 3: *number = edge(); break;
    case 4:
      *number = *other;
      *other = old;
      break;
    default: *number = permitted_number(which);
  }
  refit();
}

/* Other points: none, the built-in ones, or these in the input, where they can be changed. */
static void change_points(void) {
  input.points = (enum which)below(3);
  input.more[0] = 0;
  refit();
  if (input.points == LENT) put_built_in(input.contents[0], input.lengths[0], input.sizes.k);
}

static void change_length(void) {
  size_t i = below(buffer_count());
  static const int32_t steps[] = {1, -1, 4, -4, 12, -12};
  int32_t step = steps[below(sizeof steps / sizeof steps[0])];
  if (part_of(i) == PART_SHEET) return;
  if (kind_at(i) != UP_TO) {
    input.more[i] = below(2) == 0 ? 0 : step;
  } else if (below(8) == 0) {
    input.more[i] = (int32_t)(length_of(part_of(i), &input.sizes) * (described_parts[part_of(i)].most + below(2)));
  } else {
    input.more[i] = (int32_t)input.lengths[i] + step;
  }
  refit();
}

/* ---- Contents */

/* The bytes of one of the things that follow one another in a buffer; SIZE_MAX for sizes that are not permitted. */
static size_t stride(size_t buffer) {
  const struct sizes *s = &input.sizes;
  if (part_of(buffer) == PART_WITNESSES) return LOMVUZE_WITNESS_BYTES(s->k);
  if (kind_at(buffer) == UP_TO) return length_of(part_of(buffer), s);
  switch (layout_at(buffer)) {
    case LAYOUT_ITEM: return LOMVUZE_ITEM_BYTES(s->m, s->n);
    case LAYOUT_OPENING: return LOMVUZE_OPENING_BYTES(s->k);
    case LAYOUT_NONE: break;
  }
  return LOMVUZE_NUMBER_BYTES;
}

/* A place in a thing that has an element or a position: not in an entry's row or column, nor in a digest. */
static uint8_t *permitted_place(size_t buffer, uint8_t *thing, size_t each) {
  if (part_of(buffer) == PART_WITNESSES) return thing + below(each / LOMVUZE_NUMBER_BYTES) * LOMVUZE_NUMBER_BYTES;
  if (part_of(buffer) == PART_ENTRIES) return thing + 2 * LOMVUZE_NUMBER_BYTES;
  if (layout_at(buffer) == LAYOUT_ITEM) return item_number(&input.sizes, thing, below(item_count(&input.sizes)));
  return thing;
}

/* Mostly by the target's own change: one of any bytes breaks the line rules. */
static void change_sheet(void) {
  if (below(4) != 0) {
    target.change(&input, below);
  } else {
    input.more[0] = (int32_t)LLVMFuzzerMutate(input.contents[0], input.lengths[0], LONGEST);
    cut(&input);
  }
}

/* Copies one thing over another, or exchanges them. */
static void move(uint8_t *one, uint8_t *other, size_t each) {
  bool exchange = below(2) == 0;
  for (size_t i = 0; i < each; i++) {
    uint8_t old = one[i];
    one[i] = other[i];
    if (exchange) other[i] = old;
  }
}

static void change_contents(void) {
  if (reads_sheet()) {
    change_sheet();
    return;
  }
  size_t i = below(input_count()), length = input.lengths[i], each = stride(i);
  if (part_of(i) == PART_POINTS && input.points == BUILT_IN) input.points = LENT; /* those that stand there, and then one changed */
  if (each < LOMVUZE_NUMBER_BYTES || each > length) return;
  uint8_t *bytes = input.contents[i], *thing = bytes + below(length / each) * each, *other = bytes + below(length / each) * each;
  uint8_t *number = bytes + below(length / LOMVUZE_NUMBER_BYTES) * LOMVUZE_NUMBER_BYTES;
  uint32_t limit = part_of(i) == PART_POSITIONS && fits(&input) ? LOMVUZE_MAX_T(input.sizes.k) : LOMVUZE_P;
  switch (below(8)) {
    case 0: bytes[below(length)] ^= (uint8_t)(1 << below(8)); break;
    case 1: put_number(number, number_at(number) + (below(2) == 0 ? 1 : UINT32_MAX)); break;
    case 2: put_number(number, edge()); break;
    case 3: move(thing, other, each); break;
    default: put_number(permitted_place(i, thing, each), bits() % limit);
  }
}

/* Ones for first inputs, and now and then another number for one of them. */
static void lead(void) {
  uint8_t *at[LOMVUZE_MAX_PAIRS];
  size_t count = leading_places(&input, at);
  for (size_t i = 0; i < count; i++) put_number(at[i], 1);
  if (count > 0 && below(16) == 0) put_number(at[below(count)], edge());
}

size_t LLVMFuzzerCustomMutator(uint8_t *data, size_t size, size_t most, unsigned int seed);
size_t LLVMFuzzerCustomMutator(uint8_t *data, size_t size, size_t most, unsigned int seed) {
  state = ((uint64_t)seed * 2 + UINT64_C(0x9e3779b97f4a7c15)) | 1;
  unpack(&input, data, size);
  if (below(4) != 0) mend();
  for (size_t changes = below(4) == 0 ? 2 : 1; changes > 0; changes--) {
    switch (below(12)) {
      case 0: change_number(); break;
      case 1: change_length(); break;
      case 2:
        if (target.change != NULL) target.change(&input, below);
        break;
      case 3: (takes_points() ? change_points : change_contents)(); break;
      default: change_contents();
    }
  }
  if (!reads_sheet() && below(4) != 0) lead();
  return pack(&input, data, most);
}
