/* lomvuze_open */
#include "target.h"

/*
 * Encoding refuses the same points and witnesses. A fold of one item is that item: verifying, which takes no points, accepts it with the openings
 * once for the item and once for the new one.
 */
static void compare(const struct call *c, uint64_t answer) {
  uint32_t k = c->sizes.k, t = c->sizes.t;
  struct buffer points = c->in[0], w = c->in[1], positions = c->in[2];
  struct buffer code = scratch(LOMVUZE_CODEWORD_BYTES(k)), root = scratch(LOMVUZE_DIGEST_BYTES);
  uint32_t encoded = lomvuze_encode(k, BYTES(points), BYTES(w), BYTES(code), BYTES(root));
  REQUIRE(encoded == (answer == LOMVUZE_POSITION ? LOMVUZE_ACCEPTED : answer), "encoding has another answer");
  if (answer != LOMVUZE_ACCEPTED) return;

  size_t opening = LOMVUZE_OPENING_BYTES(k);
  struct buffer item = item_of(k, points, w), none = scratch(0), twice = scratch(LOMVUZE_ALL_OPENINGS_BYTES(k, 1, t));
  for (uint32_t i = 0; i < 2 * t; i++) memcpy(twice.bytes + i * opening, c->out[0].bytes + i / 2 * opening, opening);
  uint64_t verified = lomvuze_verify(0, 1, k, 1, t, 1, BYTES(item), BYTES(positions), BYTES(none), BYTES(item), BYTES(twice));
  REQUIRE(LOMVUZE_VERDICT(verified) == LOMVUZE_ACCEPTED, "verifying refuses the openings");
}

const struct target target = {&described_calls[CALL_OPEN], compare, NULL};
