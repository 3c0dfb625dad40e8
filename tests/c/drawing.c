/*
 * What is drawn by hash: answers that another SHA-256 gave, at the smallest sizes, the greatest and some between; and what a draw depends on. Drawn
 * numbers in a chain of calls are in containers.cc and in the examples.
 */
#include "drawing.h"

/* ---- Known answers */

/* The sum of (j + 1) * position j stands for all 4k positions. */
static const struct known {
  uint32_t m, n, k, l;
  const char *seed;
  uint32_t challenge, sum, positions[4], r[LOMVUZE_MAX_M];
} known[] = {
    {0, 1, 2, 1, "e87f45a2ea0b632182aaae3bfc13126518121296cf2f854fd0e508ce92ec78f1", 1032061098, 123, {1, 5, 7, 2}, {0}},
    {2, 3, 8, 3, "e9d93458039f9b474f0dc1adc48ab34f8110f90779884495679665853b398710", 1844764745, 9378, {6, 4, 29, 26}, {443920268, 1193429767}},
    {6, 64, 64, 8, "1e641984899c8aad2e31b5a610da41944e31ed6a8d410cccc9e8940ed668d05f", 161915840, 4189252, {31, 25, 109, 147},
     {560241762, 2007049715, 1845214582, 705833121, 1916210693, 1069155926}},
};

static uint32_t position(uint32_t j) { return lomvuze_number(out.positions + LOMVUZE_POSITIONS_BYTES(j)); }

static void known_answer(const struct known *expected) {
  char seed[2 * LOMVUZE_SEED_BYTES + 1];
  uint32_t sum = 0;
  set_up(expected->m, expected->n, expected->k, expected->l);
  draw_first();
  for (size_t i = 0; i < LOMVUZE_SEED_BYTES; i++) snprintf(seed + 2 * i, 3, "%02x", in.seed[i]);
  REQUIRE(strcmp(seed, expected->seed) == 0);
  REQUIRE(in.challenge == expected->challenge);

  REQUIRE(draw_positions() == LOMVUZE_ACCEPTED);
  for (uint32_t j = 0; j < in.t; j++) sum += (j + 1) * position(j);
  REQUIRE(sum == expected->sum);
  for (uint32_t j = 0; j < 4; j++) REQUIRE(position(j) == expected->positions[j]);

  REQUIRE(draw_r() == LOMVUZE_ACCEPTED);
  for (size_t j = 0; j < in.m; j++) REQUIRE(lomvuze_number(out.r + LOMVUZE_NUMBER_BYTES * j) == expected->r[j]);
}

/* ---- What a draw depends on */

/* Whether seed and challenge are other ones than those drawn first. */
static bool other_challenge(void) {
  return draw_challenge() == LOMVUZE_ACCEPTED && memcmp(out.seed, in.seed, LOMVUZE_SEED_BYTES) != 0 &&
         lomvuze_number(out.challenge) != in.challenge;
}

/* A bit of e, r, x, root and coefficients: of either item, the first and the last. Then k. */
static void of_challenges(void) {
  set_up(1, 2, 4, 2);
  draw_first();
  const size_t last = LOMVUZE_DIGEST_BYTES - 1, next_number = LOMVUZE_NUMBER_BYTES;
  uint8_t *const parts[] = {item(0) + LOMVUZE_ITEM_E, item(0) + LOMVUZE_ITEM_R, inputs(0) + next_number, root(0), root(0) + last,
                            item(1) + LOMVUZE_ITEM_E, root(1) + last,           in.quotient,             in.quotient + next_number};
  for (size_t i = 0; i < sizeof parts / sizeof parts[0]; i++) {
    *parts[i] ^= 1;
    REQUIRE(other_challenge());
    *parts[i] ^= 1;
  }
  in.k = 8;
  REQUIRE(other_challenge());
  in.k = 4;
  REQUIRE(!other_challenge());
}

/* The same bytes as an item of m = 0, n = 3 and of m = 1, n = 2: both have 1 as first input. */
static void of_m_and_n(void) {
  set_up(0, 3, 2, 1);
  put(item(0) + LOMVUZE_ITEM_X(1), 1);
  draw_first();
  in.m = 1;
  in.n = 2;
  REQUIRE(other_challenge());
}

/* The positions drawn first, and whether those drawn now are others. */
static uint8_t first_positions[LOMVUZE_POSITIONS_BYTES(LOMVUZE_MAX_T(16))];

static bool other_positions(void) {
  return draw_positions() == LOMVUZE_ACCEPTED && memcmp(out.positions, first_positions, in.positions_len) != 0;
}

/* A bit of seed, root and challenge. With a smaller t the first ones are drawn; with a smaller k the same ones modulo 4k. */
static void of_positions(void) {
  set_up(1, 2, 16, 2);
  draw_first();
  REQUIRE(draw_positions() == LOMVUZE_ACCEPTED);
  memcpy(first_positions, out.positions, sizeof first_positions);
  in.seed[31] ^= 1;
  REQUIRE(other_positions());
  in.seed[31] ^= 1;
  in.root[31] ^= 1;
  REQUIRE(other_positions());
  in.root[31] ^= 1;
  in.challenge ^= 1;
  REQUIRE(other_positions());
  in.challenge ^= 1;
  for (in.t = 1; in.t <= 64; in.t++) {
    set_lengths();
    REQUIRE(!other_positions());
  }
  in.k = 2;
  in.t = 8;
  set_lengths();
  REQUIRE(draw_positions() == LOMVUZE_ACCEPTED);
  for (uint32_t j = 0; j < 8; j++) REQUIRE(position(j) == lomvuze_number(first_positions + LOMVUZE_POSITIONS_BYTES(j)) % 8);
}

/* A bit of root and x. With a smaller m the first ones are drawn, and none for m = 0. */
static void of_r(void) {
  uint8_t first[LOMVUZE_R_BYTES(LOMVUZE_MAX_M)];
  set_up(LOMVUZE_MAX_M, 3, 2, 1);
  REQUIRE(draw_r() == LOMVUZE_ACCEPTED);
  memcpy(first, out.r, sizeof first);
  uint8_t *const parts[] = {in.root, in.root + 31, in.x + 4, in.x + 8};
  for (size_t i = 0; i < sizeof parts / sizeof parts[0]; i++) {
    *parts[i] ^= 1;
    REQUIRE(draw_r() == LOMVUZE_ACCEPTED && memcmp(out.r, first, sizeof first) != 0);
    *parts[i] ^= 1;
  }
  for (in.m = 0; in.m <= LOMVUZE_MAX_M; in.m++) {
    set_lengths();
    REQUIRE(draw_r() == LOMVUZE_ACCEPTED && memcmp(out.r, first, in.r_len) == 0);
  }
}

int main(void) {
  for (size_t i = 0; i < sizeof known / sizeof known[0]; i++) known_answer(&known[i]);
  of_challenges();
  of_m_and_n();
  of_positions();
  of_r();
  if (!failed) printf("drawing: %zu known answers, and what each draw depends on\n", sizeof known / sizeof known[0]);
  return failed;
}
