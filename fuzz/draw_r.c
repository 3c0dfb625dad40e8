/* lomvuze_draw_r */
#include "target.h"

/* Check 3 is what the numbers of x say. The numbers of r, drawn anew, are those that were written, below p. */
static void compare(const struct call *c, uint64_t answer) {
  REQUIRE((answer == LOMVUZE_ELEMENT) == !below_p(c->in[1]), "check 3 is not what the elements say");
  if (answer != LOMVUZE_ACCEPTED) return;

  struct message message = {{0x05}, 1};
  add_bytes(&message, c->in[0]);
  add_bytes(&message, c->in[1]);
  require_drawn(c->out[0], &message, 8, LOMVUZE_P);
}

const struct target target = {&described_calls[CALL_DRAW_R], compare, NULL};
