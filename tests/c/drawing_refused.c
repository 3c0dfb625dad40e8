/*
 * Drawing by hash, refused: each check of the three calls behind check 2 (calls.c), in their order and at its edges. drawing.h looks whether something is
 * written.
 */
#include "drawing.h"

typedef uint32_t call(void);

/* ---- Checks 3 and 13: every number of the items and of the quotient, and of x */

/* p and more are no elements. p - 1 is one, and then 13 refuses, since a first input is 2, or p - 1. */
static void element_refused(call *draw, uint8_t *place) {
  uint8_t kept[4];
  memcpy(kept, place, sizeof kept);
  put(place, LOMVUZE_P);
  REQUIRE(draw() == LOMVUZE_ELEMENT);
  put(place, UINT32_MAX);
  REQUIRE(draw() == LOMVUZE_ELEMENT);
  put(place, LOMVUZE_P - 1);
  REQUIRE(draw() == LOMVUZE_FIRST_INPUT);
  memcpy(place, kept, sizeof kept);
}

static void checks_3_and_13(uint32_t m, uint32_t n, uint32_t k, uint32_t l) {
  set_up(m, n, k, l);
  put(inputs(l - 1), 2);
  put(in.x, 2);
  for (size_t i = 0; i < l; i++)
    for (size_t j = 0; j < 1 + m + n; j++) element_refused(draw_challenge, item_number(i, j));
  for (size_t j = 0; j < in.quotient_len; j += LOMVUZE_NUMBER_BYTES) element_refused(draw_challenge, in.quotient + j);
  for (size_t j = 0; j < in.x_len; j += LOMVUZE_NUMBER_BYTES) element_refused(draw_r, in.x + j);
  put(inputs(l - 1), 1);
  put(in.x, 1);
  REQUIRE(draw_challenge() == LOMVUZE_ACCEPTED && draw_r() == LOMVUZE_ACCEPTED);
}

/* Roots and seeds are any bytes. */
static void any_bytes(void) {
  set_up(1, 2, 4, 2);
  draw_first();
  memset(root(1), 0xff, LOMVUZE_DIGEST_BYTES);
  memset(in.root, 0xff, sizeof in.root);
  memset(in.seed, 0xff, sizeof in.seed);
  REQUIRE(draw_challenge() == LOMVUZE_ACCEPTED && draw_positions() == LOMVUZE_ACCEPTED && draw_r() == LOMVUZE_ACCEPTED);
}

/* ---- Check 5: the challenge is l to p - 1 */

static void check_5(uint32_t l) {
  const uint32_t refused[] = {l - 1, LOMVUZE_P, LOMVUZE_P + 1, UINT32_MAX}, accepted[] = {l, LOMVUZE_P - 1};
  set_up(0, 1, 2, l);
  for (size_t i = 0; i < 4; i++) {
    in.challenge = refused[i];
    REQUIRE(draw_positions() == LOMVUZE_CHALLENGE);
  }
  for (size_t i = 0; i < 2; i++) {
    in.challenge = accepted[i];
    REQUIRE(draw_positions() == LOMVUZE_ACCEPTED);
  }
}

int main(void) {
  checks_3_and_13(2, 3, 8, 3);
  checks_3_and_13(0, 1, 2, 1);
  checks_3_and_13(6, 64, 64, 8);
  any_bytes();
  for (uint32_t l = LOMVUZE_MIN_L; l <= LOMVUZE_MAX_L; l++) check_5(l);
  if (!failed) printf("drawing: refusals in their order, and nothing written\n");
  return failed;
}
