/* lomvuze_draw_challenge */
#include "target.h"

/* Whether e, r and x of every item, and all coefficients, are below p. */
static bool elements_pass(const struct call *c) {
  const struct sizes *s = &c->sizes;
  for (size_t i = 0; i < s->l; i++) {
    for (size_t j = 0; j < item_count(s); j++) {
      if (number_at(item_number(s, c->in[0].bytes + LOMVUZE_ITEMS_BYTES(s->m, s->n, i), j)) >= LOMVUZE_P) return false;
    }
  }
  return below_p(c->in[1]);
}

/* Check 3 is what the elements say. Seed and challenge, drawn anew, are those that were written, and the challenge is in its range. */
static void compare(const struct call *c, uint64_t answer) {
  const struct sizes *s = &c->sizes;
  REQUIRE((answer == LOMVUZE_ELEMENT) == !elements_pass(c), "check 3 is not what the elements say");
  if (answer != LOMVUZE_ACCEPTED) return;

  struct message of_seed = {{0x02}, 1}, of_challenge = {{0x03}, 1};
  const uint32_t sizes[] = {s->m, s->n, s->k, s->l};
  for (size_t i = 0; i < 4; i++) add_number(&of_seed, sizes[i]);
  add_bytes(&of_seed, c->in[0]);
  add_bytes(&of_seed, c->in[1]);
  struct buffer seed = scratch(LOMVUZE_SEED_BYTES);
  hash(&of_seed, seed.bytes);
  REQUIRE(memcmp(seed.bytes, c->out[0].bytes, seed.length) == 0, "another seed is drawn anew");

  uint32_t challenge = number_at(c->out[1].bytes);
  add_bytes(&of_challenge, seed);
  REQUIRE(s->l <= challenge && challenge < LOMVUZE_P, "a number outside its range was drawn");
  REQUIRE(challenge == s->l + first_bytes(&of_challenge, 8) % (LOMVUZE_P - s->l), "another number is drawn anew");
}

const struct target target = {&described_calls[CALL_DRAW_CHALLENGE], compare, NULL};
