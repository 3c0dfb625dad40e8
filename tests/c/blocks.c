/*
 * What lomvuze_verify answers: 64 times the SHA-256 blocks that it processed, plus the verdict. The macros that take an answer apart, in C and in
 * C++; accepted folds of many sizes, with the blocks that a service plans; openings damaged one by one and in pairs; a refusal by 9; and the refusals
 * before 8, which have hashed nothing.
 */
#include <assert.h>
#include <string.h>
#ifdef __cplusplus
#include <type_traits>
#endif

#include "lomvuze.h"
#include "require.h"

/* ---- The macros: types, and constants at the edges. lengths.c has the sizes that LOMVUZE_VERIFY_BLOCKS takes. */

#ifdef __cplusplus
#define HAS_TYPE(type, x) std::is_same<type, decltype(x)>::value
#else
#define HAS_TYPE(type, x) _Generic((x), type: true, default: false)
#endif

static_assert(HAS_TYPE(uint32_t, LOMVUZE_VERDICT(0)) && HAS_TYPE(uint32_t, LOMVUZE_VERDICT(UINT64_MAX)), "a verdict");
static_assert(HAS_TYPE(uint64_t, LOMVUZE_BLOCKS(0)) && HAS_TYPE(uint64_t, LOMVUZE_BLOCKS(UINT64_MAX)), "a count");
static_assert(HAS_TYPE(uint64_t, LOMVUZE_VERIFY_BLOCKS(2, 1, 1)) && HAS_TYPE(uint64_t, LOMVUZE_VERIFY_BLOCKS(3, 1, 1)), "a count, or none");
static_assert(LOMVUZE_VERDICT(0) == LOMVUZE_ACCEPTED && LOMVUZE_BLOCKS(0) == 0, "no block");
static_assert(LOMVUZE_VERDICT(63) == 63 && LOMVUZE_BLOCKS(63) == 0, "the last answer without a block");
static_assert(LOMVUZE_VERDICT(64) == 0 && LOMVUZE_BLOCKS(64) == 1, "one block");
static_assert(LOMVUZE_VERDICT(64 * 39168 + 9) == LOMVUZE_COMBINATION && LOMVUZE_BLOCKS(64 * 39168 + 9) == 39168, "the greatest answer");
static_assert(LOMVUZE_VERDICT(UINT64_MAX) == 63 && LOMVUZE_BLOCKS(UINT64_MAX) == UINT64_MAX / 64, "all 64 bits");

static void once(void) {
  uint64_t answer = 64 * 14;
  REQUIRE(LOMVUZE_VERDICT(answer++) == 0 && answer == 64 * 14 + 1);
  REQUIRE(LOMVUZE_BLOCKS(answer++) == 14 && answer == 64 * 14 + 2);
}

/* ---- A fold: m = 0, n = 1 and a circuit without entries, so that an item with any witness holds */

static struct {
  uint32_t k, l, t, challenge;
  size_t cut; /* bytes that the openings lack */
  uint8_t items[LOMVUZE_ITEMS_BYTES(0, 1, LOMVUZE_MAX_L)], wits[LOMVUZE_WITNESSES_BYTES(LOMVUZE_MAX_K, LOMVUZE_MAX_L)];
  uint8_t quotient[LOMVUZE_QUOTIENT_BYTES(0, LOMVUZE_MAX_L)], new_item[LOMVUZE_ITEM_BYTES(0, 1)], new_wit[LOMVUZE_WITNESS_BYTES(LOMVUZE_MAX_K)];
  uint8_t positions[LOMVUZE_POSITIONS_BYTES(LOMVUZE_MAX_T(LOMVUZE_MAX_K))];
  uint8_t openings[LOMVUZE_ALL_OPENINGS_BYTES(LOMVUZE_MAX_K, LOMVUZE_MAX_L, LOMVUZE_MAX_T(LOMVUZE_MAX_K))];
} f;

static const size_t item_bytes = LOMVUZE_ITEM_BYTES(0, 1);

static void put(uint8_t *bytes, uint64_t number) {
  for (int i = 0; i < 4; i++) bytes[i] = number >> 8 * i & 0xff;
}

/* Opens the witnesses at t positions, each of which stands twice. */
static void open_all(void) {
  static uint8_t opened[sizeof f.openings];
  const size_t w = LOMVUZE_WITNESS_BYTES(f.k), each = LOMVUZE_OPENINGS_BYTES(f.k, f.t), all = LOMVUZE_ALL_OPENINGS_BYTES(f.k, f.l, f.t);
  for (uint32_t q = 0; q < f.t; q++) put(f.positions + LOMVUZE_POSITIONS_BYTES(q), q / 2 * 5 % (4 * f.k));
  for (size_t i = 0; i <= f.l; i++)
    REQUIRE(lomvuze_open(f.k, f.t, LOMVUZE_BUILT_IN_POINTS, i < f.l ? f.wits + i * w : f.new_wit, w, f.positions, LOMVUZE_POSITIONS_BYTES(f.t),
                         opened + i * each, each) == LOMVUZE_ACCEPTED);
  REQUIRE(lomvuze_interleave(f.k, f.l, f.t, opened, all, f.openings, all) == LOMVUZE_ACCEPTED);
}

/* Casts l witnesses of any numbers, folds the items and opens all of them. */
static void fold(uint32_t k, uint32_t l, uint32_t t) {
  const uint8_t x[LOMVUZE_X_BYTES(1)] = {1};
  const size_t w = LOMVUZE_WITNESS_BYTES(k);
  uint64_t number = 1;
  f.k = k;
  f.l = l;
  f.t = t;
  f.challenge = 9;
  for (size_t j = 0; j < l * k; j++) {
    number = (number * 48271 + 1) % LOMVUZE_P;
    put(f.wits + j * LOMVUZE_NUMBER_BYTES, number);
  }
  for (size_t i = 0; i < l; i++)
    REQUIRE(lomvuze_cast(0, 1, k, LOMVUZE_BUILT_IN_POINTS, LOMVUZE_EMPTY, LOMVUZE_EMPTY, LOMVUZE_EMPTY, LOMVUZE_EMPTY, x, sizeof x, f.wits + i * w, w,
                         f.items + i * item_bytes, item_bytes) == LOMVUZE_ACCEPTED);
  REQUIRE(lomvuze_fold(0, 1, k, l, f.challenge, LOMVUZE_BUILT_IN_POINTS, LOMVUZE_EMPTY, LOMVUZE_EMPTY, LOMVUZE_EMPTY, f.items, l * item_bytes,
                       f.wits, l * w, f.quotient, LOMVUZE_QUOTIENT_BYTES(0, l), f.new_item, item_bytes, f.new_wit, w) == LOMVUZE_ACCEPTED);
  open_all();
}

static uint64_t verify(void) {
  return lomvuze_verify(0, 1, f.k, f.l, f.t, f.challenge, f.items, f.l * item_bytes, f.positions, LOMVUZE_POSITIONS_BYTES(f.t),
                        f.quotient, LOMVUZE_QUOTIENT_BYTES(0, f.l), f.new_item, item_bytes,
                        f.openings, LOMVUZE_ALL_OPENINGS_BYTES(f.k, f.l, f.t) - f.cut);
}

/* ---- What is expected, from the messages: FIPS 180-4, 5.1.1 */

/* The byte 0x80 and eight bytes of length follow a message, and zeros between them fill its last block. */
static uint64_t message_blocks(uint64_t length) { return (length + 1 + 8 + 63) / 64; }

/* A leaf is a byte, the position and the value; an inner node is a byte and two digests, one node on each level above the leaves. */
static uint64_t opening_blocks(void) {
  uint64_t blocks = message_blocks(1 + 4 + 4);
  for (uint32_t width = 4 * f.k; width > 1; width /= 2) blocks += message_blocks(1 + 32 + 32);
  return blocks;
}

static size_t opening_count(void) { return f.t * (f.l + 1); }

/* All openings hashed. */
static uint64_t whole(uint32_t verdict) { return 64 * opening_count() * opening_blocks() + verdict; }

/* Hashing ended with opening number j. */
static uint64_t refused_at(size_t j) { return 64 * (j + 1) * opening_blocks() + LOMVUZE_OPENING; }

/* ---- Accepted folds */

static void accepted(uint32_t k, uint32_t l, uint32_t t) {
  fold(k, l, t);
  REQUIRE(verify() == whole(LOMVUZE_ACCEPTED));
  REQUIRE(LOMVUZE_VERDICT(verify()) == LOMVUZE_ACCEPTED && LOMVUZE_BLOCKS(verify()) == LOMVUZE_VERIFY_BLOCKS(k, l, t));
}

static void all_sizes(void) {
  for (uint32_t k = LOMVUZE_MIN_K; k <= LOMVUZE_MAX_K; k *= 2)
    for (uint32_t l = LOMVUZE_MIN_L; l <= LOMVUZE_MAX_L; l++) {
      accepted(k, l, 1);
      accepted(k, l, 3);
      accepted(k, l, 4 * k);
    }
  REQUIRE(verify() == 64 * 39168); /* the last is the greatest */
  REQUIRE(strcmp(lomvuze_strerror(64 * 39168), "unknown answer") == 0);
  REQUIRE(strcmp(lomvuze_strerror(LOMVUZE_VERDICT(verify())), "accepted") == 0);
}

/* ---- Openings that do not lead to their roots */

enum { VALUE, FIRST_SIBLING, LAST_SIBLING, PARTS };

/* Changes a bit in a part of opening number j, and changes it back where it was changed before. */
static void flip(size_t j, int part) {
  const size_t length = LOMVUZE_OPENING_BYTES(f.k), place = part == VALUE ? 0 : part == FIRST_SIBLING ? LOMVUZE_NUMBER_BYTES : length - 1;
  f.openings[j * length + place] ^= 1;
}

/* One damaged opening, and another one behind it. */
static void each_opening(void) {
  for (size_t j = 0; j < opening_count(); j++)
    for (int part = 0; part < PARTS; part++) {
      flip(j, part);
      REQUIRE(verify() == refused_at(j));
      for (size_t i = j + 1; i < opening_count(); i++) {
        flip(i, (part + 1) % PARTS);
        REQUIRE(verify() == refused_at(j));
        flip(i, (part + 1) % PARTS);
      }
      flip(j, part);
    }
}

/* Another root: the first opening of its item, at the first position, fails. Another position: the first opening there does. */
static void roots_and_positions(void) {
  for (uint32_t i = 0; i <= f.l; i++) {
    uint8_t *root = (i < f.l ? f.items + i * item_bytes : f.new_item) + LOMVUZE_ITEM_ROOT(0, 1);
    root[31] ^= 1;
    REQUIRE(verify() == refused_at(i));
    root[31] ^= 1;
  }
  for (uint32_t q = 0; q < f.t; q++) {
    f.positions[LOMVUZE_POSITIONS_BYTES(q)] ^= 1;
    REQUIRE(verify() == refused_at(q * (f.l + 1)));
    f.positions[LOMVUZE_POSITIONS_BYTES(q)] ^= 1;
  }
  REQUIRE(verify() == whole(LOMVUZE_ACCEPTED));
}

/* ---- A refusal by 9: the new item has root and openings of item 0. They lead to their roots, and do not combine. */

static void no_combination(void) {
  const size_t length = LOMVUZE_OPENING_BYTES(f.k), root = LOMVUZE_ITEM_ROOT(0, 1);
  memcpy(f.new_item + root, f.items + root, LOMVUZE_DIGEST_BYTES);
  for (size_t q = 0; q < f.t; q++) memcpy(f.openings + (q * (f.l + 1) + f.l) * length, f.openings + q * (f.l + 1) * length, length);
  REQUIRE(verify() == whole(LOMVUZE_COMBINATION));
  flip(opening_count() - 1, LAST_SIBLING);
  REQUIRE(verify() == refused_at(opening_count() - 1));
}

/* ---- Refusals before 8 */

/* The bare number, also where every opening is damaged. */
static void bare(uint32_t verdict) {
  REQUIRE(verify() == verdict);
  for (size_t j = 0; j < opening_count(); j++) flip(j, LAST_SIBLING);
  REQUIRE(verify() == verdict);
  for (size_t j = 0; j < opening_count(); j++) flip(j, LAST_SIBLING);
}

/* The same with another number at a place, which is put back. */
static void bare_with(uint8_t *place, uint32_t number, uint32_t verdict) {
  uint8_t old[4];
  memcpy(old, place, sizeof old);
  put(place, number);
  bare(verdict);
  memcpy(place, old, sizeof old);
}

static void before_8(void) {
  const uint32_t challenge = f.challenge;
  uint8_t *last_opening = f.openings + (opening_count() - 1) * LOMVUZE_OPENING_BYTES(f.k);
  f.cut = 1;
  bare(LOMVUZE_SIZE);
  f.cut = 0;
  bare_with(last_opening, LOMVUZE_P, LOMVUZE_ELEMENT);
  bare_with(f.items + (f.l - 1) * item_bytes + LOMVUZE_ITEM_X(0), 2, LOMVUZE_FIRST_INPUT);
  f.challenge = f.l - 1;
  bare(LOMVUZE_CHALLENGE);
  f.challenge = LOMVUZE_P;
  bare(LOMVUZE_CHALLENGE);
  f.challenge = challenge;
  bare_with(f.positions + LOMVUZE_POSITIONS_BYTES(f.t - 1), 4 * f.k, LOMVUZE_POSITION);
  bare_with(f.new_item + LOMVUZE_ITEM_E, 1, LOMVUZE_NEW_ITEM);
  REQUIRE(verify() == whole(LOMVUZE_ACCEPTED));
}

static void refused(uint32_t k, uint32_t l, uint32_t t) {
  fold(k, l, t);
  before_8();
  each_opening();
  roots_and_positions();
  if (l > 1) no_combination(); /* the fold of one item is that item */
}

int main(void) {
  once();
  all_sizes();
  refused(2, 3, 5);
  refused(16, 1, 2);
  refused(64, 8, 3);
  if (!failed) printf("blocks: verdict and count as expected, for folds accepted, refused by 8 and 9, and refused before\n");
  return failed ? 1 : 0;
}
