/*
 * A registrar that folds a list with a false item: the stored statements, of which the last says a payment that is one higher. lomvuze_quotient and
 * lomvuze_fold refuse such a list. So the registrar folds another one, in which that item has the e with which it holds, and then hands in e = 0, a
 * quotient of its own, and in each fold the e that this quotient gives. Verify accepts that for any quotient. Decide accepts it at those challenges for
 * which the quotient was made: as many as it has coefficients, (l - 1) * (m + 1).
 */
#ifndef FALSE_ITEM_H
#define FALSE_ITEM_H

#include "chain.h"
#include "obligations/modp.h"

/* The place of the payment in x. It counts in the circuit's last row alone. */
enum { PAYMENT = 2 };

#define MOST_COEFFICIENTS ((LOMVUZE_MAX_L - 1) * (LOMVUZE_MAX_M + 1))

/* The items as they are handed in, with e = 0, and as the registrar folds them. */
static uint8_t handed_in[LOMVUZE_ITEMS_BYTES(LOMVUZE_MAX_M, LOMVUZE_MAX_N, LOMVUZE_MAX_L)];
static uint8_t as_folded[sizeof handed_in];

static inline void put(uint8_t *bytes, uint32_t value) {
  for (size_t i = 0; i < LOMVUZE_NUMBER_BYTES; i++) bytes[i] = (uint8_t)(value >> (8 * i));
}

/* Makes the last item false, with the r that is drawn for it. What is off by -1 is the last row, whose weight is the product of the r. The e. */
static inline uint32_t make_false(struct front *f, struct front *with_e) {
  memcpy(handed_in, f->items.bytes, f->items.length);
  uint8_t *item = handed_in + LOMVUZE_ITEMS_BYTES(f->m, f->n, f->l - 1);
  uint8_t *payment = item + LOMVUZE_ITEM_X(f->m) + LOMVUZE_X_BYTES(PAYMENT);
  put(payment, plus(lomvuze_number(payment), 1));
  draw_r_of(f, item, item + LOMVUZE_ITEM_R);
  uint32_t e = minus(0, 1);
  for (uint32_t b = 0; b < f->m; b++) e = times(e, lomvuze_number(item + LOMVUZE_ITEM_R + LOMVUZE_R_BYTES(b)));
  f->items.bytes = handed_in;
  memcpy(as_folded, handed_in, f->items.length);
  put(as_folded + (item - handed_in) + LOMVUZE_ITEM_E, e);
  *with_e = *f;
  with_e->items.bytes = as_folded;
  return e;
}

/* The product of (X - challenge) over the challenges, as coefficients from that of X^0 on. */
static inline void product_of(const uint32_t *challenges, size_t count, uint32_t p[MOST_COEFFICIENTS + 1]) {
  p[0] = 1;
  for (size_t j = 0; j < count; j++) {
    p[j + 1] = p[j];
    for (size_t i = j; i > 0; i--) p[i] = minus(p[i - 1], times(p[i], challenges[j]));
    p[0] = times(minus(0, p[0]), challenges[j]);
  }
}

static inline uint32_t value_at(const uint32_t *p, size_t degree, uint32_t x) {
  uint32_t value = p[degree];
  for (size_t i = degree; i > 0; i--) value = plus(times(value, x), p[i - 1]);
  return value;
}

/*
 * Changes the quotient of the list with e into one for the list with e = 0, for `count` known challenges. With P = the product of (X - challenge) and
 * node = l - 1, what is added is (s + c * P(X)) / (X - node), where s = e / (l - 1)!, and c is such that the division leaves no remainder. At each of
 * these challenges P is 0, and Z times what is added is L_node * e: the new item's e is the one with which it holds.
 */
static inline void bend_quotient(const struct front *f, uint32_t e, const uint32_t *challenges, size_t count) {
  uint32_t p[MOST_COEFFICIENTS + 1], node = f->l - 1, s = e, carry = 0;
  for (uint32_t i = 1; i <= node; i++) s = times(s, inverse(i));
  product_of(challenges, count, p);
  uint32_t c = times(minus(0, s), inverse(value_at(p, count, node)));
  for (size_t i = count; i > 0; i--) {
    uint8_t *coefficient = made.quotient + (i - 1) * LOMVUZE_NUMBER_BYTES;
    carry = plus(times(carry, node), times(c, p[i]));
    put(coefficient, plus(lomvuze_number(coefficient), carry));
  }
}

/* The e of a fold of items with e = 0: Z(challenge) * quotient(challenge). */
static inline void put_new_e(const struct front *f, uint32_t challenge) {
  uint32_t e = 0;
  for (uint32_t i = (f->l - 1) * (f->m + 1); i > 0; i--)
    e = plus(times(e, challenge), lomvuze_number(made.quotient + (i - 1) * LOMVUZE_NUMBER_BYTES));
  for (uint32_t i = 0; i < f->l; i++) e = times(e, minus(challenge, i));
  put(made.item + LOMVUZE_ITEM_E, e);
}

#endif
