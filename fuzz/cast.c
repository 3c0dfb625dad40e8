/* lomvuze_cast */
#include "target.h"

/*
 * The item put together by hand, with the root that encoding gives, is the one that was written. Deciding it gives the same answer. Encoding knows
 * the points and the witness alone: where it refuses them, casting does, or it refuses another element before.
 */
static void compare(const struct call *c, uint64_t answer) {
  const struct sizes *s = &c->sizes;
  struct buffer r = c->in[4], x = c->in[5], w = c->in[6];
  struct buffer code = scratch(LOMVUZE_CODEWORD_BYTES(s->k)), item = scratch(LOMVUZE_ITEM_BYTES(s->m, s->n));
  struct buffer root = slice(item, LOMVUZE_ITEM_ROOT(s->m, s->n), LOMVUZE_DIGEST_BYTES);
  if (r.length > 0) memcpy(item.bytes + LOMVUZE_ITEM_R, r.bytes, r.length);
  memcpy(item.bytes + LOMVUZE_ITEM_X(s->m), x.bytes, x.length);

  uint32_t encoded = lomvuze_encode(s->k, BYTES(c->in[0]), BYTES(w), BYTES(code), BYTES(root));
  bool before = encoded == LOMVUZE_POINTS && answer == LOMVUZE_ELEMENT;
  REQUIRE(encoded == LOMVUZE_ACCEPTED || encoded == answer || before, "encoding has another answer");
  REQUIRE(lomvuze_decide(s->m, s->n, s->k, OVER(c), BYTES(item), BYTES(w)) == answer, "deciding has another answer");
  REQUIRE(answer != LOMVUZE_ACCEPTED || memcmp(item.bytes, c->out[0].bytes, item.length) == 0, "another item was written");
}

const struct target target = {&described_calls[CALL_CAST], compare, NULL};
