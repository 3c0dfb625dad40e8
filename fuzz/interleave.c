/* lomvuze_interleave */
#include "target.h"

/*
 * Each opening stands where the header says that verifying looks for it. Exchanging positions and items, where their counts permit it, gives
 * the openings back.
 */
static void compare(const struct call *c, uint64_t answer) {
  const struct sizes *s = &c->sizes;
  struct buffer opened = c->in[0], openings = c->out[0];
  if (answer != LOMVUZE_ACCEPTED) return;

  uint32_t count = s->l + 1;
  size_t opening = LOMVUZE_OPENING_BYTES(s->k);
  for (size_t q = 0; q < s->t; q++) {
    for (size_t i = 0; i < count; i++) {
      struct buffer from = slice(opened, (i * s->t + q) * opening, opening), to = slice(openings, (q * count + i) * opening, opening);
      REQUIRE(memcmp(from.bytes, to.bytes, opening) == 0, "an opening stands elsewhere");
    }
  }

  if (!permitted(s->t - 1, NUMBER_L, s->k) || !permitted(count, NUMBER_T, s->k)) return;
  struct buffer back = scratch(opened.length);
  REQUIRE(lomvuze_interleave(s->k, s->t - 1, count, BYTES(openings), BYTES(back)) == LOMVUZE_ACCEPTED, "the way back is refused");
  REQUIRE(memcmp(opened.bytes, back.bytes, opened.length) == 0, "the way back gives others");
}

const struct target target = {&described_calls[CALL_INTERLEAVE], compare, NULL};
