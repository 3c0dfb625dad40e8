/*
 * The three calls that draw, for drawing.c and drawing_refused.c: what goes in, of any numbers, and outputs that are looked at after each call.
 */
#ifndef DRAWING_H
#define DRAWING_H

#include <string.h>

#include "lomvuze.h"
#include "require.h"

enum { FILL = 0xA5 };

/* ---- What goes in */

static struct {
  uint32_t m, n, k, l, t, challenge;
  size_t items_len, quotient_len, positions_len, x_len, r_len;
  uint8_t items[LOMVUZE_ITEMS_BYTES(LOMVUZE_MAX_M, LOMVUZE_MAX_N, LOMVUZE_MAX_L)], quotient[LOMVUZE_QUOTIENT_BYTES(LOMVUZE_MAX_M, LOMVUZE_MAX_L)];
  uint8_t seed[LOMVUZE_SEED_BYTES], root[LOMVUZE_DIGEST_BYTES], x[LOMVUZE_X_BYTES(LOMVUZE_MAX_N)];
} in;

static inline void put(uint8_t *bytes, uint32_t number) {
  for (int i = 0; i < 4; i++) bytes[i] = number >> 8 * i & 0xff;
}

/* The next of a row of numbers below p. */
static inline uint32_t next(uint64_t *state) {
  *state = (*state * 48271 + 1) % LOMVUZE_P;
  return (uint32_t)*state;
}

static inline void put_digest(uint8_t *bytes, uint64_t *state) {
  for (size_t i = 0; i < LOMVUZE_DIGEST_BYTES; i++) bytes[i] = next(state) & 0xff;
}

/* The lengths that the sizes give. */
static inline void set_lengths(void) {
  in.items_len = LOMVUZE_ITEMS_BYTES(in.m, in.n, in.l);
  in.quotient_len = LOMVUZE_QUOTIENT_BYTES(in.m, in.l);
  in.positions_len = LOMVUZE_POSITIONS_BYTES(in.t);
  in.x_len = LOMVUZE_X_BYTES(in.n);
  in.r_len = LOMVUZE_R_BYTES(in.m);
}

/* Item i, where its x and its root start, and its number j: e, then r, then x. */
static inline uint8_t *item(size_t i) { return in.items + LOMVUZE_ITEMS_BYTES(in.m, in.n, i); }
static inline uint8_t *inputs(size_t i) { return item(i) + LOMVUZE_ITEM_X(in.m); }
static inline uint8_t *root(size_t i) { return item(i) + LOMVUZE_ITEM_ROOT(in.m, in.n); }
static inline uint8_t *item_number(size_t i, size_t j) {
  if (j == 0) return item(i) + LOMVUZE_ITEM_E;
  return j <= in.m ? item(i) + LOMVUZE_ITEM_R + (j - 1) * LOMVUZE_NUMBER_BYTES : inputs(i) + (j - 1 - in.m) * LOMVUZE_NUMBER_BYTES;
}

/* Items with 1 as first input, a quotient, a root, and x of item 0. There are 4k positions to draw. */
static inline void set_up(uint32_t m, uint32_t n, uint32_t k, uint32_t l) {
  uint64_t state = 1;
  in.m = m;
  in.n = n;
  in.k = k;
  in.l = l;
  in.t = 4 * k;
  set_lengths();
  for (size_t i = 0; i < l; i++) {
    for (size_t j = 0; j < 1 + m + n; j++) put(item_number(i, j), next(&state));
    put(inputs(i), 1);
    put_digest(root(i), &state);
  }
  for (size_t j = 0; j < in.quotient_len; j += LOMVUZE_NUMBER_BYTES) put(in.quotient + j, next(&state));
  put_digest(in.root, &state);
  memcpy(in.x, inputs(0), in.x_len);
}

/* ---- The calls. The outputs are filled before: a refusal leaves them so, and an accepted call what lies behind their lengths. */

static struct {
  uint8_t seed[LOMVUZE_SEED_BYTES + 4], challenge[LOMVUZE_CHALLENGE_BYTES + 4];
  uint8_t positions[LOMVUZE_POSITIONS_BYTES(LOMVUZE_MAX_T(LOMVUZE_MAX_K)) + 4], r[LOMVUZE_R_BYTES(LOMVUZE_MAX_M) + 4];
} out;

static inline bool filled(const uint8_t *bytes, size_t from, size_t size) {
  while (from < size && bytes[from] == FILL) from++;
  return from == size;
}

/* Looks at the outputs, of which an accepted call writes so many bytes. */
static inline uint32_t left_alone(uint32_t answer, size_t seed, size_t challenge, size_t positions, size_t r) {
  const bool drawn = answer == LOMVUZE_ACCEPTED;
  REQUIRE(filled(out.seed, drawn ? seed : 0, sizeof out.seed));
  REQUIRE(filled(out.challenge, drawn ? challenge : 0, sizeof out.challenge));
  REQUIRE(filled(out.positions, drawn ? positions : 0, sizeof out.positions));
  REQUIRE(filled(out.r, drawn ? r : 0, sizeof out.r));
  return answer;
}

static inline uint32_t draw_challenge(void) {
  memset(&out, FILL, sizeof out);
  uint32_t answer = lomvuze_draw_challenge(in.m, in.n, in.k, in.l, in.items, in.items_len, in.quotient, in.quotient_len,
                                           out.seed, LOMVUZE_SEED_BYTES, out.challenge, LOMVUZE_CHALLENGE_BYTES);
  return left_alone(answer, LOMVUZE_SEED_BYTES, LOMVUZE_CHALLENGE_BYTES, 0, 0);
}

static inline uint32_t draw_positions(void) {
  memset(&out, FILL, sizeof out);
  uint32_t answer = lomvuze_draw_positions(in.k, in.l, in.t, in.challenge, in.seed, sizeof in.seed, in.root, sizeof in.root,
                                           out.positions, in.positions_len);
  return left_alone(answer, 0, 0, in.positions_len, 0);
}

static inline uint32_t draw_r(void) {
  memset(&out, FILL, sizeof out);
  uint32_t answer = lomvuze_draw_r(in.m, in.n, in.root, sizeof in.root, in.x, in.x_len, out.r, in.r_len);
  return left_alone(answer, 0, 0, 0, in.r_len);
}

/* Draws seed and challenge, and has positions drawn from them. */
static inline void draw_first(void) {
  REQUIRE(draw_challenge() == LOMVUZE_ACCEPTED);
  memcpy(in.seed, out.seed, LOMVUZE_SEED_BYTES);
  in.challenge = lomvuze_number(out.challenge);
}

#endif
