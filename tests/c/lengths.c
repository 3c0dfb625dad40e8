/*
 * The header's macros, in C and in C++: constants, every limit from both sides, numbers that would wrap, and arguments of each integer type; and for
 * each buffer of each call the macro with its length. The lengths that are expected come from the description of the calls, whose formulas make/calls.sh
 * writes to calls.h, and from functions that know the limits by themselves. And the number in four bytes.
 */
#include <assert.h>
#include <inttypes.h>
#include <stdbool.h>
#include <stdio.h>

#include "calls.h"

/* ---- Constants, which may be the lengths of arrays */

struct longest {
  uint8_t openings[LOMVUZE_ALL_OPENINGS_BYTES(LOMVUZE_MAX_K, LOMVUZE_MAX_L, LOMVUZE_MAX_T(LOMVUZE_MAX_K))];
};
static_assert(sizeof(struct longest) == 256 * 9 * 260, "all openings at the greatest sizes");
static_assert(LOMVUZE_ITEM_BYTES(6, 64) == 316 && LOMVUZE_ITEM_ROOT(6, 64) == 284, "an item");
static_assert(LOMVUZE_ITEM_E == 0 && LOMVUZE_ITEM_R == 4 && LOMVUZE_ITEM_X(6) == 28 && LOMVUZE_ITEM_X(7) == SIZE_MAX, "the places of its fields");
static_assert(LOMVUZE_SHEET_ITEMS_BYTES == 64 * 316 && LOMVUZE_SHEET_WITNESSES_BYTES == 64 * 256, "a sheet");
static_assert(LOMVUZE_QUOTIENT_BYTES(6, 8) == 196 && LOMVUZE_QUOTIENT_BYTES(0, 1) == 0, "a quotient");
static_assert(LOMVUZE_QUOTIENT_BYTES(0, 0) == SIZE_MAX && LOMVUZE_QUOTIENT_BYTES(-1, 1) == SIZE_MAX, "no quotient");
static_assert(LOMVUZE_SEED_BYTES == 32 && LOMVUZE_CHALLENGE_BYTES == 4, "what is drawn");
static_assert(LOMVUZE_POINTS_BYTES(64) == 1024 && LOMVUZE_POINTS_BYTES(0) == SIZE_MAX, "points");
static_assert(LOMVUZE_DEPTH(64) == 8 && LOMVUZE_DEPTH(63) == 0 && LOMVUZE_MAX_T(3) == 0, "k");
static_assert(LOMVUZE_VERIFY_BLOCKS(64, 8, 256) == 39168 && LOMVUZE_VERIFY_BLOCKS(2, 1, 1) == 14, "the most and the fewest blocks");
static_assert(LOMVUZE_VERIFY_BLOCKS(64, 8, 257) == 0 && LOMVUZE_VERIFY_BLOCKS(2, 1, -1) == 0, "no blocks");

/* ---- What is expected: the description's formulas. Where an argument is out of its limits, SIZE_MAX. */

static bool is_m(size_t m) { return m <= 6; }

static bool is_n(size_t n) { return 1 <= n && n <= 64; }

static bool is_k(size_t k) { return k == 2 || k == 4 || k == 8 || k == 16 || k == 32 || k == 64; }

static bool is_l(size_t l) { return 1 <= l && l <= 8; }

static size_t depth(size_t k) { return is_k(k) ? depth_of(k & UINT32_MAX) : 0; }

static struct sizes sizes_of(size_t m, size_t n, size_t k, size_t l, size_t t) {
  struct sizes s;
  s.m = m & UINT32_MAX;
  s.n = n & UINT32_MAX;
  s.k = k & UINT32_MAX;
  s.l = l & UINT32_MAX;
  s.t = t & UINT32_MAX;
  s.challenge = 0;
  return s;
}

/* The length of a part, where the sizes that it is over are permitted. */
static size_t of(bool permitted, enum part part, size_t m, size_t n, size_t k, size_t l, size_t t) {
  const struct sizes s = sizes_of(m, n, k, l, t);
  return permitted ? length_of(part, &s) : SIZE_MAX;
}

/* So many times a length. */
static size_t times(size_t count, size_t most, size_t each) { return count <= most ? count * each : SIZE_MAX; }

/* ---- The comparisons */

static unsigned long compared, wrong;

static void compare(const char *macro, size_t got, size_t expected) {
  compared++;
  if (got == expected) return;
  wrong++;
  printf("FAILED: %s is %zu and not %zu\n", macro, got, expected);
}
#define SAME(macro, expected) compare(#macro, macro, expected)

static void try_one(size_t x) {
  const struct sizes m = sizes_of(x, 1, 2, 1, 1), k = sizes_of(0, 1, x, 1, 1);
  SAME(LOMVUZE_DEPTH(x), depth(x));
  SAME(LOMVUZE_MAX_T(x), is_k(x) ? 4 * x : 0);
  SAME(LOMVUZE_ENTRIES_BYTES(x), times(x, 1024, length_of(PART_ENTRIES, &m)));
  SAME(LOMVUZE_R_BYTES(x), of(is_m(x), PART_R, x, 0, 0, 0, 0));
  SAME(LOMVUZE_X_BYTES(x), of(is_n(x), PART_X, 0, x, 0, 0, 0));
  SAME(LOMVUZE_WITNESS_BYTES(x), of(is_k(x), PART_WITNESS, 0, 0, x, 0, 0));
  SAME(LOMVUZE_CODEWORD_BYTES(x), of(is_k(x), PART_CODEWORD, 0, 0, x, 0, 0));
  SAME(LOMVUZE_POINTS_BYTES(x), of(is_k(x), PART_POINTS, 0, 0, x, 0, 0));
  SAME(LOMVUZE_POSITIONS_BYTES(x), of(x <= 256, PART_POSITIONS, 0, 0, 0, 0, x));
  SAME(LOMVUZE_OPENING_BYTES(x), is_k(x) ? opening_length(&k) : SIZE_MAX);
  SAME(LOMVUZE_ITEM_E, item_e(&m));
  SAME(LOMVUZE_ITEM_R, item_r(&m));
  SAME(LOMVUZE_ITEM_X(x), is_m(x) ? item_x(&m) : SIZE_MAX);
}

static void try_two(size_t x, size_t y) {
  const bool of_item = is_m(x) && is_n(y);
  const struct sizes s = sizes_of(x, y, 2, 1, 1);
  SAME(LOMVUZE_ITEM_BYTES(x, y), of(of_item, PART_ONE_ITEM, x, y, 0, 0, 0));
  SAME(LOMVUZE_ITEM_BYTES(x, y), of_item ? item_length(&s) : SIZE_MAX);
  SAME(LOMVUZE_ITEM_ROOT(x, y), of_item ? item_root(&s) : SIZE_MAX);
  SAME(LOMVUZE_WITNESSES_BYTES(x, y), of(is_k(x) && y <= 64, PART_WITNESSES, 0, 0, x, y, 0));
  SAME(LOMVUZE_QUOTIENT_BYTES(x, y), of(is_m(x) && is_l(y), PART_QUOTIENT, x, 0, 0, y, 0));
  SAME(LOMVUZE_OPENINGS_BYTES(x, y), of(is_k(x) && y <= 4 * x, PART_OPENINGS, 0, 0, x, 0, y));
  SAME(LOMVUZE_IS_T(x, y), is_k(x) && 1 <= y && y <= 4 * x);
}

static void try_three(size_t x, size_t y, size_t z) {
  const bool of_openings = is_k(x) && is_l(y) && z <= 4 * x;
  SAME(LOMVUZE_ITEMS_BYTES(x, y, z), of(is_m(x) && is_n(y) && z <= 64, PART_ITEMS, x, y, 0, z, 0));
  SAME(LOMVUZE_ALL_OPENINGS_BYTES(x, y, z), of(of_openings, PART_OPENINGS_BY_POSITION, 0, 0, x, y, z));
  SAME(LOMVUZE_VERIFY_BLOCKS(x, y, z), of_openings ? z * (y + 1) * (1 + 2 * depth(x)) : 0);
}

/* ---- The macro of each part. Where one is missing here, the compiler says so. */

static size_t macro_of(enum part part, const struct sizes *s) {
  switch (part) {
    case PART_DIGEST: return LOMVUZE_DIGEST_BYTES;
    case PART_SEED: return LOMVUZE_SEED_BYTES;
    case PART_DRAWN_CHALLENGE: return LOMVUZE_CHALLENGE_BYTES;
    case PART_POINTS: return LOMVUZE_POINTS_BYTES(s->k);
    case PART_ENTRIES: return LOMVUZE_ENTRIES_BYTES(LOMVUZE_MAX_ENTRIES);
    case PART_R: return LOMVUZE_R_BYTES(s->m);
    case PART_X: return LOMVUZE_X_BYTES(s->n);
    case PART_WITNESS: return LOMVUZE_WITNESS_BYTES(s->k);
    case PART_WITNESSES: return LOMVUZE_WITNESSES_BYTES(s->k, s->l);
    case PART_CODEWORD: return LOMVUZE_CODEWORD_BYTES(s->k);
    case PART_ONE_ITEM: return LOMVUZE_ITEM_BYTES(s->m, s->n);
    case PART_ITEMS: return LOMVUZE_ITEMS_BYTES(s->m, s->n, s->l);
    case PART_QUOTIENT: return LOMVUZE_QUOTIENT_BYTES(s->m, s->l);
    case PART_POSITIONS: return LOMVUZE_POSITIONS_BYTES(s->t);
    case PART_OPENINGS: return LOMVUZE_OPENINGS_BYTES(s->k, s->t);
    case PART_OPENINGS_BY_WITNESS:
    case PART_OPENINGS_BY_POSITION: return LOMVUZE_ALL_OPENINGS_BYTES(s->k, s->l, s->t);
    case PART_SHEET: return LOMVUZE_MAX_SHEET;
    case PART_SHEET_ENTRIES: return LOMVUZE_SHEET_ENTRIES_BYTES;
    case PART_SHEET_ITEMS: return LOMVUZE_SHEET_ITEMS_BYTES;
    case PART_SHEET_WITNESSES: return LOMVUZE_SHEET_WITNESSES_BYTES;
    case PART_SHEET_SIZES: return sizeof(uint32_t[7]); /* in the prototype */
    case PART_END: break;
  }
  return SIZE_MAX;
}

static void try_parts(size_t m, size_t n, size_t k, size_t l, size_t t) {
  const struct sizes s = sizes_of(m, n, k, l, t);
  const size_t count = sizeof described_parts / sizeof described_parts[0];
  for (unsigned part = PART_END + 1; part < count; part++) {
    const enum part which = LOMVUZE_AS(enum part, part);
    const size_t most = described_parts[part].most;
    compare(described_parts[part].name, macro_of(which, &s), most * length_of(which, &s));
  }
}

/* Four bytes, lowest first. */
static void try_number(void) {
  const uint8_t bytes[] = {0xff, 0xff, 0xff, 0xff, 0, 0, 0, 0, 0x04, 0x83, 0x02, 0x81};
  SAME(lomvuze_number(bytes), UINT32_MAX);
  SAME(lomvuze_number(bytes + 1), 0xffffff);
  SAME(lomvuze_number(bytes + 4), 0);
  SAME(lomvuze_number(bytes + 5), 0x04000000);
  SAME(lomvuze_number(bytes + 8), 0x81028304);
}

/* The same numbers in each integer type. */
#define TRY_TYPE(type, number)                                                                       \
  do {                                                                                               \
    const type x = number;                                                                           \
    SAME(LOMVUZE_ENTRIES_BYTES(x), times(number, 1024, 12));                                         \
    const struct sizes s = sizes_of(number, number, number, number, number);                         \
    SAME(LOMVUZE_ITEM_X(x), item_x(&s));                                                             \
    SAME(LOMVUZE_ITEM_ROOT(x, x), item_root(&s));                                                    \
    SAME(LOMVUZE_ITEMS_BYTES(x, x, x), of(true, PART_ITEMS, number, number, 0, number, 0));          \
    SAME(LOMVUZE_QUOTIENT_BYTES(x, x), of(true, PART_QUOTIENT, number, 0, 0, number, 0));            \
    SAME(LOMVUZE_ALL_OPENINGS_BYTES(x, x, x), of(true, PART_OPENINGS_BY_WITNESS, 0, 0, number, number, number)); \
    SAME(LOMVUZE_VERIFY_BLOCKS(x, x, x), 3 * number * (1 + 2 * depth(number)));                      \
    SAME(LOMVUZE_VERDICT(x), number);                                                                \
    SAME(LOMVUZE_IS_M(x) && LOMVUZE_IS_N(x) && LOMVUZE_IS_K(x) && LOMVUZE_IS_L(x), true);            \
  } while (0)

static void try_types(void) {
  TRY_TYPE(char, 2);
  TRY_TYPE(signed char, 2);
  TRY_TYPE(uint8_t, 2);
  TRY_TYPE(short, 2);
  TRY_TYPE(uint16_t, 2);
  TRY_TYPE(int, 2);
  TRY_TYPE(uint32_t, 2);
  TRY_TYPE(long, 2);
  TRY_TYPE(int64_t, 2);
  TRY_TYPE(uint64_t, 2);
  const int minus = -2;
  SAME(LOMVUZE_ENTRIES_BYTES(minus), SIZE_MAX);
  SAME(LOMVUZE_ITEMS_BYTES(2, 2, minus), SIZE_MAX);
  SAME(LOMVUZE_MAX_T(minus), 0);
  SAME(LOMVUZE_VERIFY_BLOCKS(2, 2, minus), 0);
  const bool one = true;
  SAME(LOMVUZE_R_BYTES(one), 4);
}

int main(void) {
  /* About each limit, and numbers with which a product or sum of the lengths would wrap to a small number. */
  static const size_t numbers[] = {0, 1, 2, 3, 4, 5, 6, 7, 8, 9, 16, 31, 32, 33, 63, 64, 65, 127, 128, 255, 256, 257, 1023, 1024, 1025,
                                   UINT32_MAX, SIZE_MAX / 316 + 1, SIZE_MAX / 260 + 1, SIZE_MAX / 16 + 1, SIZE_MAX / 12 + 1,
                                   SIZE_MAX / 8 + 1, SIZE_MAX / 8 + 2, SIZE_MAX / 4 + 1, SIZE_MAX / 4 + 3, SIZE_MAX / 2 + 1, SIZE_MAX - 1, SIZE_MAX};
  const size_t count = sizeof numbers / sizeof numbers[0];
  for (size_t i = 0; i < count; i++) {
    try_one(numbers[i]);
    for (size_t j = 0; j < count; j++) {
      try_two(numbers[i], numbers[j]);
      for (size_t q = 0; q < count; q++) try_three(numbers[i], numbers[j], numbers[q]);
    }
  }
  try_parts(0, 1, 2, 1, 1);
  try_parts(2, 3, 8, 3, 5);
  try_parts(6, 64, 64, 8, 256);
  try_number();
  try_types();
  printf("lengths: %lu compared\n", compared);
  return wrong == 0 ? 0 : 1;
}
