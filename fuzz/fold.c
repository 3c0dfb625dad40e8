/* lomvuze_fold */
#include "target.h"

/* The openings of all items and the new one at two positions, in the order that verifying takes. */
static struct buffer open_all(const struct call *c, struct buffer positions) {
  uint32_t k = c->sizes.k, l = c->sizes.l, t = 2;
  size_t opening = LOMVUZE_OPENING_BYTES(k);
  struct buffer all = scratch(LOMVUZE_ALL_OPENINGS_BYTES(k, l, t)), opened = scratch(LOMVUZE_OPENINGS_BYTES(k, t));
  for (uint32_t i = 0; i <= l; i++) {
    struct buffer w = i < l ? slice(c->in[5], i * LOMVUZE_WITNESS_BYTES(k), LOMVUZE_WITNESS_BYTES(k)) : c->out[2];
    REQUIRE(lomvuze_open(k, t, BYTES(c->in[0]), BYTES(w), BYTES(positions), BYTES(opened)) == LOMVUZE_ACCEPTED, "a witness is not opened");
    for (uint32_t q = 0; q < t; q++) memcpy(all.bytes + (q * (l + 1) + i) * opening, opened.bytes + q * opening, opening);
  }
  return all;
}

/*
 * The quotient alone gets the same answer, and after 0 the same bytes; but it knows no challenge. What was written is accepted by deciding,
 * and by verifying at the last position and one other.
 */
static void compare(const struct call *c, uint64_t answer) {
  const struct sizes *s = &c->sizes;
  struct buffer quotient = scratch(c->out[0].length);
  uint32_t alone = lomvuze_quotient(s->m, s->n, s->k, s->l, OVER(c), BYTES(c->in[4]), BYTES(c->in[5]), BYTES(quotient));
  bool permitted = s->l <= s->challenge && s->challenge < LOMVUZE_P;
  bool before = comes_before(alone, LOMVUZE_CHALLENGE);
  REQUIRE(answer == (before || permitted ? alone : LOMVUZE_CHALLENGE), "the quotient or the challenge says another answer");
  if (answer != LOMVUZE_ACCEPTED) return;

  REQUIRE(quotient.length == 0 || memcmp(quotient.bytes, c->out[0].bytes, quotient.length) == 0, "another quotient");
  REQUIRE(lomvuze_decide(s->m, s->n, s->k, OVER(c), BYTES(c->out[1]), BYTES(c->out[2])) == LOMVUZE_ACCEPTED, "deciding refuses the new item");

  struct buffer positions = scratch(LOMVUZE_POSITIONS_BYTES(2));
  put_number(positions.bytes, 4 * s->k - 1);
  put_number(positions.bytes + LOMVUZE_NUMBER_BYTES, s->challenge % (4 * s->k));
  struct buffer openings = open_all(c, positions);
  uint64_t verified = lomvuze_verify(s->m, s->n, s->k, s->l, 2, s->challenge, BYTES(c->in[4]), BYTES(positions), BYTES(c->out[0]),
                                     BYTES(c->out[1]), BYTES(openings));
  REQUIRE(LOMVUZE_VERDICT(verified) == LOMVUZE_ACCEPTED, "verifying refuses the fold");
}

const struct target target = {&described_calls[CALL_FOLD], compare, NULL};
