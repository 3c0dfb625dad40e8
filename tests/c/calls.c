/*
 * All calls of the description, by what it says of them. With inputs of permitted sizes and exact lengths check 2 passes. With a buffer that is longer or
 * shorter, or a number that is not permitted, it refuses, whatever the inputs hold; only a sheet is read before. Nothing but the outputs of an accepted
 * call is written: guards stand on both sides of each buffer. And empty buffers: the pointer may be the one of LOMVUZE_EMPTY, that of lomvuze_in and
 * lomvuze_out over null, or null itself, which the library promises nothing about, and as it is compiled does no harm.
 */
#include "honest.h"

/* Calls that accept what honest.h makes; others may refuse it by a later check. */
enum { ACCEPTING = 12 };

static unsigned long refused;

static uint32_t verdict_of_call(void) {
  const uint64_t answer = described->run(&call);
  const uint32_t verdict = LOMVUZE_VERDICT(answer);
  if (!only_outputs_written(verdict)) {
    printf("FAILED: lomvuze_%s, verdict %u: something else than its outputs is written\n", described->name, (unsigned)verdict);
    failed = true;
  }
  return verdict;
}

static void expect(bool holds, const char *what, uint32_t verdict) {
  const struct sizes *s = &call.sizes;
  if (holds) return;
  printf("FAILED: lomvuze_%s: %s: verdict %u with m = %u, n = %u, k = %u, l = %u, t = %u\n", described->name, what, (unsigned)verdict, (unsigned)s->m,
         (unsigned)s->n, (unsigned)s->k, (unsigned)s->l, (unsigned)s->t);
  for (size_t i = 0; i < buffer_count(); i++) printf("  %s: %zu bytes\n", described_parts[part_at(i)].name, buffer_at(i)->length);
  failed = true;
}

/* ---- What check 2 permits and refuses */

static bool runs(uint32_t check) {
  const uint32_t *next = described->checks;
  while (*next != 0 && *next != check) next++;
  return *next != 0;
}

static uint32_t passes(const char *what) {
  const uint32_t verdict = verdict_of_call();
  expect(verdict != LOMVUZE_SIZE && (verdict == LOMVUZE_ACCEPTED || runs(verdict)), what, verdict);
  return verdict;
}

/* A sheet that breaks the line rules is refused for that before. */
static void refuses(const char *what, enum contents contents) {
  const uint32_t verdict = verdict_of_call();
  const bool before = described->checks[0] != LOMVUZE_SIZE && contents == SPOILT;
  expect(verdict == (before ? described->checks[0] : LOMVUZE_SIZE), what, verdict);
  refused++;
}

/* ---- Lengths */

static void length_refused(struct buffer *buffer, size_t length, enum contents contents) {
  const size_t exact = buffer->length;
  buffer->length = length;
  refuses("a wrong length", contents);
  buffer->length = exact;
}

/* About a length that is permitted, where that is not the buffer's other one, 0. */
static void about(struct buffer *buffer, size_t length, enum contents contents) {
  static const size_t off[] = {1, 4};
  for (size_t i = 0; i < 2; i++) {
    length_refused(buffer, length + off[i], contents);
    if (length > off[i] || (length == off[i] && buffer->length != 0)) length_refused(buffer, length - off[i], contents);
  }
}

/* Another length that is permitted. What the buffer has there is read. */
static void length_passes(struct buffer *buffer, size_t length) {
  const size_t exact = buffer->length;
  buffer->length = length;
  passes("a permitted length");
  buffer->length = exact;
}

static void try_lengths(enum contents contents) {
  for (size_t i = 0; i < buffer_count(); i++) {
    struct buffer *buffer = buffer_at(i);
    const size_t each = length_of(part_at(i), &call.sizes), most = each * described_parts[part_at(i)].most;
    switch (kind_at(i)) {
      case EXACT:
        about(buffer, each, contents);
        if (each > 0) length_refused(buffer, 0, contents);
        break;
      case OR_EMPTY:
      case UP_TO:
        if (part_at(i) == PART_SHEET) break;
        about(buffer, each == most ? 0 : each, contents);
        about(buffer, most, contents);
        length_passes(buffer, most);
        break;
      case NUMBERS: break;
    }
  }
}

/* A sheet that is too long is refused before its lines are read. */
static void try_long_sheet(void) {
  if (part_at(0) != PART_SHEET) return;
  call.in[0].length = described_parts[PART_SHEET].most + 1;
  const uint32_t verdict = verdict_of_call();
  expect(verdict == LOMVUZE_SHEET, "a sheet that is too long", verdict);
}

/* ---- Numbers */

enum { MOST_VALUES = 16 };

#define VALUES(...)                                 \
  do {                                              \
    const uint32_t list[] = {__VA_ARGS__};          \
    memcpy(values, list, sizeof list);              \
    return sizeof list / sizeof list[0];            \
  } while (0)

/* Values that check 2 permits. Which challenges are permitted is for check 5. */
static size_t permitted_values(enum number number, const struct sizes *s, uint32_t values[MOST_VALUES]) {
  switch (number) {
    case NUMBER_M: VALUES(0, 1, 2, 3, 4, 5, 6);
    case NUMBER_N: VALUES(1, 2, 63, 64);
    case NUMBER_K: VALUES(2, 4, 8, 16, 32, 64);
    case NUMBER_L: VALUES(1, 2, 7, 8);
    case NUMBER_T: VALUES(1, 2, 4 * s->k);
    case NUMBER_CHALLENGE: VALUES(0, s->l - 1, s->l, LOMVUZE_P - 1, LOMVUZE_P, UINT32_MAX);
    case NUMBER_END: break;
  }
  return 0;
}

/* Values that it refuses; 2^30 more gives the same lengths modulo 2^32. */
static size_t refused_values(enum number number, const struct sizes *s, uint32_t values[MOST_VALUES]) {
  const uint32_t more = UINT32_C(1) << 30;
  switch (number) {
    case NUMBER_M: VALUES(7, 8, UINT32_MAX, s->m + more);
    case NUMBER_N: VALUES(0, 65, UINT32_MAX, s->n + more);
    case NUMBER_K: VALUES(0, 1, 3, 5, 6, 7, 9, 31, 33, 63, 65, 96, 128, UINT32_MAX, s->k + more);
    case NUMBER_L: VALUES(0, 9, UINT32_MAX, s->l + more);
    case NUMBER_T: VALUES(0, 4 * s->k + 1, UINT32_MAX, s->t + more);
    case NUMBER_CHALLENGE:
    case NUMBER_END: break;
  }
  return 0;
}

/* A number that is not permitted, with the lengths as they are, and with those that it gives. */
static void number_refused(const struct described_call *which, const struct sizes *s, enum number number, uint32_t value, enum contents contents) {
  struct sizes other = *s;
  *number_of(number, &other) = value;
  prepare(which, s, contents);
  call.sizes = other;
  refuses("a number that is not permitted, with lengths of permitted ones", contents);
  if (prepare(which, &other, contents)) refuses("a number that is not permitted, with its lengths", contents);
}

static void try_numbers(const struct described_call *which, const struct sizes *s, enum contents contents) {
  for (size_t i = 0; i < which->number_count; i++) {
    uint32_t values[MOST_VALUES];
    const enum number number = which->numbers[i];
    const size_t outside = refused_values(number, s, values);
    for (size_t j = 0; j < outside; j++) number_refused(which, s, number, values[j], contents);
    const size_t inside = permitted_values(number, s, values);
    for (size_t j = 0; j < inside; j++) {
      struct sizes other = *s;
      *number_of(number, &other) = values[j];
      if (other.t > 4 * other.k) other.t = 4 * other.k;
      if (prepare(which, &other, contents)) passes("numbers at their limits");
    }
  }
}

/* ---- Empty buffers */

static uint8_t *empty_pointer(int way) { return way == 0 ? lomvuze_empty() : way == 1 ? lomvuze_out(NULL, 0) : NULL; }

/* Those that are empty get another pointer: nothing changes. Then all are empty, and the first check refuses, which of a sheet is its own. */
static void try_empty(const struct described_call *which, const struct sizes *s, uint32_t honest) {
  for (int way = 0; way < 3; way++) {
    prepare(which, s, HONEST);
    for (size_t i = 0; i < buffer_count(); i++) {
      if (buffer_at(i)->length == 0) buffer_at(i)->bytes = empty_pointer(way);
    }
    uint32_t verdict = verdict_of_call();
    expect(verdict == honest, "another pointer of an empty buffer", verdict);
    for (size_t i = 0; i < buffer_count(); i++) {
      if (kind_at(i) != NUMBERS) *buffer_at(i) = (struct buffer){empty_pointer(way), 0};
    }
    verdict = verdict_of_call();
    expect(verdict == which->checks[0], "nothing but empty buffers", verdict);
  }
}

/* Whether honest inputs are accepted. */
static bool try_call(const struct described_call *which, uint32_t m, uint32_t n, uint32_t k, uint32_t l, uint32_t t) {
  const struct sizes s = {.m = m, .n = n, .k = k, .l = l, .t = t, .challenge = l};
  const struct sizes spoilt = {.m = m, .n = n, .k = k, .l = l, .t = t, .challenge = UINT32_MAX};
  prepare(which, &s, HONEST);
  const uint32_t verdict = passes("honest inputs");
  try_lengths(HONEST);
  try_long_sheet();
  prepare(which, &spoilt, SPOILT);
  passes("spoilt inputs");
  try_lengths(SPOILT);
  try_numbers(which, &s, HONEST);
  try_numbers(which, &spoilt, SPOILT);
  try_empty(which, &s, verdict);
  return verdict == LOMVUZE_ACCEPTED;
}

int main(void) {
  unsigned long accepting = 0;
  for (size_t i = 0; i < CALL_COUNT; i++) {
    const struct described_call *which = &described_calls[i];
    bool least = try_call(which, 0, 1, 2, 1, 1), some = try_call(which, 1, 2, 4, 2, 3), greatest = try_call(which, 6, 64, 64, 8, 256);
    accepting += least && some && greatest;
  }
  REQUIRE(accepting >= ACCEPTING);
  if (!failed) printf("calls: %lu of %d accept honest inputs; %lu refusals by check 2; nothing else is written\n", accepting, CALL_COUNT, refused);
  return failed;
}
