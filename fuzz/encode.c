/* lomvuze_encode */
#include "target.h"

/*
 * Opening every position gives the same answer and shows the codeword; casting gives the root. With points that are lent the codeword has the sums
 * that define it.
 */
static void compare(const struct call *c, uint64_t answer) {
  uint32_t k = c->sizes.k, t = LOMVUZE_MAX_T(k);
  struct buffer points = c->in[0], w = c->in[1], code = c->out[0];
  struct buffer positions = scratch(LOMVUZE_POSITIONS_BYTES(t)), openings = scratch(LOMVUZE_OPENINGS_BYTES(k, t));
  for (uint32_t i = 0; i < t; i++) put_number(positions.bytes + LOMVUZE_POSITIONS_BYTES(i), i);
  REQUIRE(lomvuze_open(k, t, BYTES(points), BYTES(w), BYTES(positions), BYTES(openings)) == answer, "opening has another answer");
  if (answer != LOMVUZE_ACCEPTED) return;

  for (uint32_t i = 0; i < t; i++) {
    struct buffer opened = slice(openings, i * LOMVUZE_OPENING_BYTES(k), LOMVUZE_NUMBER_BYTES);
    struct buffer value = slice(code, i * LOMVUZE_NUMBER_BYTES, LOMVUZE_NUMBER_BYTES);
    REQUIRE(memcmp(opened.bytes, value.bytes, opened.length) == 0, "opening shows another codeword");
    REQUIRE(points.length == 0 || number_at(value.bytes) == value_at(points, i, w), "the codeword is not the one of the points");
  }
  struct buffer root = slice(item_of(k, points, w), LOMVUZE_ITEM_ROOT(0, 1), LOMVUZE_DIGEST_BYTES);
  REQUIRE(memcmp(root.bytes, c->out[1].bytes, root.length) == 0, "casting has another root");
}

const struct target target = {&described_calls[CALL_ENCODE], compare, NULL};
