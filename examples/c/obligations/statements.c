/* Obligations 1 and 2: what a registrar hands in. */
#include <string.h>

#include "modp.h"
#include "obligations.h"

/* The test of obligation 1. */
static bool is_fresh(const struct pair *pair) { return e_of(pair) == 0; }

/* 1. The value of 4 * 5 = 21 is 20 - 21 = p - 1, so with this e the item holds. */
void e_of_a_fold(struct tally *without, struct tally *with) {
  struct claim bent = falsehood;
  bent.e = minus(0, 1);
  struct pair handed_in = written(&product, bent);
  struct fold f = fold_of(&product, written(&product, six), handed_in, 0);
  run_chains(&f, without);
  /* The item is not taken, and handed in again with e = 0. By hand, the quotient is the one that fold has just written. */
  if (!is_fresh(&handed_in)) handed_in = written(&product, falsehood);
  f = fold_of(&product, written(&product, six), handed_in, number(f.quotient, 0));
  run_chains(&f, with);
}

/* Row 0: w0 * w1 = x1. Row 1: w0 * w0 = x2. The columns are x0, which is 1, x1, x2, w0 and w1. */
static const struct circuit two_rows = {
    1, 3, 2, LOMVUZE_ENTRIES_BYTES(2), {ENTRY(0, 3), ENTRY(1, 3)}, {ENTRY(0, 4), ENTRY(1, 3)}, {ENTRY(0, 1), ENTRY(1, 2)}};

/*
 * A claim that is cast with one r, and then with another. 2 * 3 = 6, 2 * 2 = 4 is folded with it. Where casting refuses, the item is written by
 * hand, and where folding refuses, the quotient is the one of the first r.
 */
static void try_r(struct claim claim, uint32_t picked, uint32_t other, struct tally *without, struct tally *with) {
  struct pair honest = {{0}, {0}}, pair = honest;
  cast(&two_rows, (struct claim){.r = 7, .x = {1, 6, 4}, .w = {2, 3}}, &honest, without);
  claim.r = picked;
  if (!cast(&two_rows, claim, &pair, without)) pair = written(&two_rows, claim);
  struct fold f = fold_of(&two_rows, honest, pair, 0);
  run_chains(&f, without);
  claim.r = other;
  if (!cast(&two_rows, claim, &pair, with)) pair = written(&two_rows, claim);
  struct fold g = fold_of(&two_rows, honest, pair, 0);
  memcpy(g.quotient, f.quotient, sizeof g.quotient);
  run_chains(&g, with);
}

/* 2. Row 1 says 2 * 2 = 5. With r = 0 its weight is 0. */
void r_of_the_registrar(struct tally *without, struct tally *with) {
  try_r((struct claim){.x = {1, 6, 5}, .w = {2, 3}}, 0, 7, without, with);
}

/* 2. The same item. The r that is drawn from its root and x, which r does not change, is another one. */
void r_not_compared(struct tally *without, struct tally *with) {
  struct claim claim = {.x = {1, 6, 5}, .w = {2, 3}};
  struct pair handed_in = written(&two_rows, claim);
  try_r(claim, 0, drawn_r(&two_rows, &handed_in), without, with);
}

/* 2. The weights are 1 - r and r, -6 and 7 for r = 7: x is made such that row 0 is wrong by 7 and row 1 by 6. */
void r_known_before(struct tally *without, struct tally *with) {
  struct claim claim = {.x = {1, minus(6, 7), minus(4, 6)}, .w = {2, 3}};
  try_r(claim, 7, 11, without, with);
}
