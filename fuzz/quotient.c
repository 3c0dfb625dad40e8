/* lomvuze_quotient */
#include "target.h"

/* Folding at the least challenge that is permitted gives the same answer and quotient. */
static void compare(const struct call *c, uint64_t answer) {
  const struct sizes *s = &c->sizes;
  struct buffer quotient = scratch(c->out[0].length), item = scratch(LOMVUZE_ITEM_BYTES(s->m, s->n));
  struct buffer witness = scratch(LOMVUZE_WITNESS_BYTES(s->k));
  REQUIRE(lomvuze_fold(s->m, s->n, s->k, s->l, s->l, OVER(c), BYTES(c->in[4]), BYTES(c->in[5]), BYTES(quotient), BYTES(item),
                       BYTES(witness)) == answer,
          "folding has another answer");
  if (answer != LOMVUZE_ACCEPTED || quotient.length == 0) return;
  REQUIRE(memcmp(quotient.bytes, c->out[0].bytes, quotient.length) == 0, "folding has another quotient");
}

const struct target target = {&described_calls[CALL_QUOTIENT], compare, NULL};
