/*
 * Check 13, that an item's first input is 1, by each call that runs it: three items and their fold, with another first input in one item after the
 * other; what is tested before it and after it; the new item, where verifying answers 7; and sheets. A refusal writes nothing.
 */
#include <inttypes.h>
#include <string.h>

#include "lomvuze.h"
#include "require.h"

/* Row 0 is w0 * w1 = x1, row 1 has no entries. The columns are x0, which is 1, x1, w0 and w1. */
enum { M = 1, N = 2, K = 2, L = 3, T = 3, CHALLENGE = 9, FILL = 0xA5 };
static uint8_t a[12] = {0, 0, 0, 0, 2, 0, 0, 0, 1};
static const uint8_t b[12] = {0, 0, 0, 0, 3, 0, 0, 0, 1}, c[12] = {0, 0, 0, 0, 1, 0, 0, 0, 1}, r[4] = {5};
static uint8_t points[LOMVUZE_POINTS_BYTES(K)];

/* 2 * 3 = 6, 4 * 5 = 20 and 7 * 8 = 56. */
static uint8_t x[L][8] = {{1, 0, 0, 0, 6}, {1, 0, 0, 0, 20}, {1, 0, 0, 0, 56}}, wits[L][8] = {{2, 0, 0, 0, 3}, {4, 0, 0, 0, 5}, {7, 0, 0, 0, 8}};

/* The items, and what their fold is verified with. */
static uint8_t items[L][LOMVUZE_ITEM_BYTES(M, N)], quotient[LOMVUZE_QUOTIENT_BYTES(M, L)], new_item[sizeof items[0]], new_wit[sizeof wits[0]];
static uint8_t positions[LOMVUZE_POSITIONS_BYTES(T)] = {0, 0, 0, 0, 3, 0, 0, 0, 7}, openings[LOMVUZE_ALL_OPENINGS_BYTES(K, L, T)];

/* ---- Numbers in buffers */

static void put(uint8_t *bytes, uint32_t number) {
  for (int i = 0; i < 4; i++) bytes[i] = (uint8_t)(number >> 8 * i);
}

static uint8_t *first_input(uint8_t *item) { return item + LOMVUZE_ITEM_X(M); }

/* ---- The calls. Each gets buffers that are filled, and leaves them so where it refuses. */

static struct {
  uint8_t quotient[sizeof quotient], item[sizeof new_item], wit[sizeof new_wit];
  uint8_t seed[LOMVUZE_SEED_BYTES], challenge[LOMVUZE_CHALLENGE_BYTES], r[sizeof r];
} out;

static struct {
  uint8_t a[LOMVUZE_SHEET_ENTRIES_BYTES], b[LOMVUZE_SHEET_ENTRIES_BYTES], c[LOMVUZE_SHEET_ENTRIES_BYTES];
  uint8_t items[LOMVUZE_SHEET_ITEMS_BYTES], wits[LOMVUZE_SHEET_WITNESSES_BYTES];
  uint32_t sizes[7];
} sheet;

static void fill(void) {
  memset(&out, FILL, sizeof out);
  memset(&sheet, FILL, sizeof sheet);
}

static bool filled(const void *bytes, size_t length) {
  const uint8_t *first = bytes;
  return first[0] == FILL && memcmp(first, first + 1, length - 1) == 0;
}

static uint32_t untouched(uint32_t answer) {
  REQUIRE(answer == LOMVUZE_ACCEPTED || (filled(&out, sizeof out) && filled(&sheet, sizeof sheet)));
  return answer;
}

#define OVER points, points_len, a, sizeof a, b, sizeof b, c, sizeof c
static size_t points_len;

static uint32_t cast(size_t i) {
  fill();
  return untouched(lomvuze_cast(M, N, K, OVER, r, sizeof r, x[i], sizeof x[i], wits[i], sizeof wits[i], out.item, sizeof out.item));
}

static uint32_t quotient_alone(void) {
  fill();
  return untouched(lomvuze_quotient(M, N, K, L, OVER, items[0], sizeof items, wits[0], sizeof wits, out.quotient, sizeof out.quotient));
}

static uint32_t fold(uint32_t challenge) {
  fill();
  return untouched(lomvuze_fold(M, N, K, L, challenge, OVER, items[0], sizeof items, wits[0], sizeof wits, out.quotient, sizeof out.quotient,
                              out.item, sizeof out.item, out.wit, sizeof out.wit));
}

static uint32_t verify(uint32_t challenge) {
  return LOMVUZE_VERDICT(lomvuze_verify(M, N, K, L, T, challenge, items[0], sizeof items, positions, sizeof positions, quotient, sizeof quotient,
                                        new_item, sizeof new_item, openings, sizeof openings));
}

static uint32_t draw_challenge(void) {
  fill();
  return untouched(lomvuze_draw_challenge(M, N, K, L, items[0], sizeof items, quotient, sizeof quotient, out.seed, sizeof out.seed,
                                          out.challenge, sizeof out.challenge));
}

static uint32_t draw_r(size_t i) {
  fill();
  return untouched(lomvuze_draw_r(M, N, items[i] + LOMVUZE_ITEM_ROOT(M, N), LOMVUZE_DIGEST_BYTES, x[i], sizeof x[i], out.r, sizeof out.r));
}

static uint32_t decide(const uint8_t *item, const uint8_t *wit) {
  return lomvuze_decide(M, N, K, OVER, item, sizeof new_item, wit, sizeof new_wit);
}

/* A sheet of the three products, with first inputs, the row of A's entry and the count of pairs as given. */
static uint32_t read_sheet(uint32_t first, uint32_t second, uint32_t third, uint32_t row, uint32_t end) {
  char text[1024];
  int length = snprintf(text, sizeof text,
                        "size\t0\t2\t2\na\t%" PRIu32 "\t2\t1\nb\t0\t3\t1\nc\t0\t1\t1\n"
                        "item\t0\t%" PRIu32 "\t6\t%064d\nwit\t2\t3\nitem\t0\t%" PRIu32 "\t20\t%064d\nwit\t4\t5\n"
                        "item\t0\t%" PRIu32 "\t56\t%064d\nwit\t7\t8\nend\t%" PRIu32 "\n",
                        row, first, 0, second, 0, third, 0, end);
  fill();
  return untouched(lomvuze_read_sheet((const uint8_t *)text, (size_t)length, sheet.a, sizeof sheet.a, sheet.b, sizeof sheet.b, sheet.c, sizeof sheet.c,
                                    sheet.items, sizeof sheet.items, sheet.wits, sizeof sheet.wits, sheet.sizes));
}

/* ---- The chain, which is accepted */

static void fold_three(void) {
  uint8_t opened[sizeof openings];
  const size_t each = LOMVUZE_OPENINGS_BYTES(K, T);
  for (size_t i = 0; i < L; i++) {
    REQUIRE(cast(i) == LOMVUZE_ACCEPTED);
    memcpy(items[i], out.item, sizeof out.item);
  }
  REQUIRE(quotient_alone() == LOMVUZE_ACCEPTED);
  REQUIRE(fold(CHALLENGE) == LOMVUZE_ACCEPTED);
  memcpy(quotient, out.quotient, sizeof quotient);
  memcpy(new_item, out.item, sizeof new_item);
  memcpy(new_wit, out.wit, sizeof new_wit);
  for (size_t i = 0; i <= L; i++)
    REQUIRE(lomvuze_open(K, T, points, points_len, i < L ? wits[i] : new_wit, sizeof new_wit, positions, sizeof positions,
                         opened + i * each, each) == LOMVUZE_ACCEPTED);
  REQUIRE(lomvuze_interleave(K, L, T, opened, sizeof opened, openings, sizeof openings) == LOMVUZE_ACCEPTED);
  REQUIRE(verify(CHALLENGE) == LOMVUZE_ACCEPTED);
  REQUIRE(decide(new_item, new_wit) == LOMVUZE_ACCEPTED);
  REQUIRE(draw_challenge() == LOMVUZE_ACCEPTED && draw_r(0) == LOMVUZE_ACCEPTED);
}

/* ---- One item after the other */

static void each_item(uint32_t number, uint32_t answer) {
  for (size_t i = 0; i < L; i++) {
    put(x[i], number);
    put(first_input(items[i]), number);
    REQUIRE(cast(i) == answer);
    REQUIRE(quotient_alone() == answer);
    REQUIRE(fold(CHALLENGE) == answer);
    REQUIRE(verify(CHALLENGE) == answer);
    REQUIRE(decide(items[i], wits[i]) == answer);
    REQUIRE(draw_challenge() == answer);
    REQUIRE(draw_r(i) == answer);
    put(x[i], 1);
    put(first_input(items[i]), 1);
  }
}

/* ---- The order: item 1 has another first input, and something else is wrong too */

/* The answer of the four calls that take points and a circuit. */
static void all_four(uint32_t answer) {
  REQUIRE(cast(1) == answer);
  REQUIRE(quotient_alone() == answer);
  REQUIRE(fold(CHALLENGE) == answer);
  REQUIRE(decide(items[1], wits[1]) == answer);
}

static void in_order(void) {
  uint8_t first_quotient[sizeof quotient];
  memcpy(first_quotient, quotient, sizeof quotient);
  put(x[1], 2);
  put(first_input(items[1]), 2);
  points_len = sizeof points; /* all of them 0 */
  a[0] = 2;                   /* row 2 of 2 */
  all_four(LOMVUZE_POINTS);
  points_len = 0;
  all_four(LOMVUZE_CIRCUIT);
  a[0] = 0;
  wits[1][0] ^= 1; /* and so the root is another, and x does not hold */
  all_four(LOMVUZE_FIRST_INPUT);
  wits[1][0] ^= 1;
  REQUIRE(fold(L - 1) == LOMVUZE_FIRST_INPUT && fold(LOMVUZE_P) == LOMVUZE_FIRST_INPUT);
  REQUIRE(verify(L - 1) == LOMVUZE_FIRST_INPUT && verify(LOMVUZE_P) == LOMVUZE_FIRST_INPUT);
  positions[0] = 4 * K;
  REQUIRE(verify(CHALLENGE) == LOMVUZE_FIRST_INPUT);
  positions[0] = 0;
  put(quotient, LOMVUZE_P);
  REQUIRE(verify(CHALLENGE) == LOMVUZE_ELEMENT && draw_challenge() == LOMVUZE_ELEMENT);
  memcpy(quotient, first_quotient, sizeof quotient);
  put(x[1], 1);
  put(first_input(items[1]), 1);
  REQUIRE(verify(CHALLENGE) == LOMVUZE_ACCEPTED);
}

/* ---- The new item: verifying compares it with what the items give, deciding tests it */

static void of_the_new_item(void) {
  put(first_input(new_item), 2);
  REQUIRE(verify(CHALLENGE) == LOMVUZE_NEW_ITEM);
  REQUIRE(verify(L - 1) == LOMVUZE_CHALLENGE);
  REQUIRE(decide(new_item, new_wit) == LOMVUZE_FIRST_INPUT);
  put(first_input(items[L - 1]), 2);
  REQUIRE(verify(CHALLENGE) == LOMVUZE_FIRST_INPUT);
  put(first_input(items[L - 1]), 1);
  put(first_input(new_item), 1);
  REQUIRE(verify(CHALLENGE) == LOMVUZE_ACCEPTED);
}

/* ---- Sheets, and x of one number */

static void of_sheets(void) {
  REQUIRE(read_sheet(1, 1, 1, 0, 3) == LOMVUZE_ACCEPTED && sheet.sizes[6] == 3);
  REQUIRE(read_sheet(0, 1, 1, 0, 3) == LOMVUZE_FIRST_INPUT);
  REQUIRE(read_sheet(1, 2, 1, 0, 3) == LOMVUZE_FIRST_INPUT);
  REQUIRE(read_sheet(1, 1, LOMVUZE_P - 1, 0, 3) == LOMVUZE_FIRST_INPUT);
  REQUIRE(read_sheet(2, 2, 2, 1, 3) == LOMVUZE_CIRCUIT);
  REQUIRE(read_sheet(2, 2, LOMVUZE_P, 1, 3) == LOMVUZE_ELEMENT);
  REQUIRE(read_sheet(2, 2, 2, 0, 2) == LOMVUZE_SIZE);
}

/* A circuit without entries. */
static uint32_t cast_one(uint8_t first) {
  const uint8_t only[4] = {first};
  uint8_t item[LOMVUZE_ITEM_BYTES(0, 1)];
  return lomvuze_cast(0, 1, K, LOMVUZE_BUILT_IN_POINTS, LOMVUZE_EMPTY, LOMVUZE_EMPTY, LOMVUZE_EMPTY, LOMVUZE_EMPTY, only, sizeof only,
                      wits[0], sizeof wits[0], item, sizeof item);
}

int main(void) {
  fold_three();
  each_item(0, LOMVUZE_FIRST_INPUT);
  each_item(2, LOMVUZE_FIRST_INPUT);
  each_item(257, LOMVUZE_FIRST_INPUT);
  each_item(LOMVUZE_P - 1, LOMVUZE_FIRST_INPUT);
  each_item(LOMVUZE_P + 1, LOMVUZE_ELEMENT);
  in_order();
  of_the_new_item();
  of_sheets();
  REQUIRE(cast_one(1) == LOMVUZE_ACCEPTED && cast_one(2) == LOMVUZE_FIRST_INPUT);
  if (!failed) printf("first inputs: tested by seven calls and the sheet reader, each in its place, and nothing written\n");
  return failed;
}
