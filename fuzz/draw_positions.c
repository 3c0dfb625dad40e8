/* lomvuze_draw_positions */
#include "target.h"

/* Check 5 is what the challenge says. The positions, drawn anew, are those that were written, below 4k. */
static void compare(const struct call *c, uint64_t answer) {
  const struct sizes *s = &c->sizes;
  bool in_range = s->l <= s->challenge && s->challenge < LOMVUZE_P;
  REQUIRE((answer == LOMVUZE_CHALLENGE) == !in_range, "check 5 is not what the challenge says");
  if (answer != LOMVUZE_ACCEPTED) return;

  struct message message = {{0x04}, 1};
  add_bytes(&message, c->in[0]);
  add_number(&message, s->challenge);
  add_bytes(&message, c->in[1]);
  require_drawn(c->out[0], &message, 4, 4 * s->k);
}

/* Another challenge, often one beside the ends of the range: contents alone are never refused. */
static void change(struct input *input, size_t (*below)(size_t)) {
  const uint32_t challenges[] = {0, input->sizes.l - 1, input->sizes.l, LOMVUZE_P - 1, LOMVUZE_P, UINT32_MAX, (uint32_t)below(UINT32_MAX)};
  input->sizes.challenge = challenges[below(sizeof challenges / sizeof challenges[0])];
}

const struct target target = {&described_calls[CALL_DRAW_POSITIONS], compare, change};
