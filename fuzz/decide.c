/* lomvuze_decide */
#include "target.h"

/* Folding the item alone, at any challenge, gives the same answer and gives it back. With another e or root it is refused. */
static void compare(const struct call *c, uint64_t answer) {
  const struct sizes *s = &c->sizes;
  struct buffer item = c->in[4], w = c->in[5], none = scratch(0), new_item = scratch(item.length), new_w = scratch(w.length);
  REQUIRE(lomvuze_fold(s->m, s->n, s->k, 1, LOMVUZE_P - 1, OVER(c), BYTES(item), BYTES(w), BYTES(none), BYTES(new_item), BYTES(new_w)) == answer,
          "folding the item alone has another answer");
  if (answer != LOMVUZE_ACCEPTED) return;
  REQUIRE(memcmp(item.bytes, new_item.bytes, item.length) == 0 && memcmp(w.bytes, new_w.bytes, w.length) == 0,
          "folding the item alone gives another");

  uint8_t *e_bytes = item.bytes + LOMVUZE_ITEM_E, *root = item.bytes + LOMVUZE_ITEM_ROOT(s->m, s->n);
  uint32_t e = number_at(e_bytes);
  put_number(e_bytes, (e + 1) % LOMVUZE_P);
  REQUIRE(run_decide(c) == LOMVUZE_CLAIM, "another e is accepted");
  put_number(e_bytes, e);
  root[LOMVUZE_DIGEST_BYTES - 1] ^= 1;
  REQUIRE(run_decide(c) == LOMVUZE_ROOT, "another root is accepted");
  root[LOMVUZE_DIGEST_BYTES - 1] ^= 1;
}

const struct target target = {&described_calls[CALL_DECIDE], compare, NULL};
