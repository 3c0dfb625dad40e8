/* Items and folds by hand. */
#include <stdio.h>
#include <stdlib.h>
#include <string.h>

#include "modp.h"
#include "obligations.h"

const struct circuit product = {0, 2, 2, LOMVUZE_ENTRIES_BYTES(1), {ENTRY(0, 2)}, {ENTRY(0, 3)}, {ENTRY(0, 1)}};

const struct claim six = {.x = {1, 6}, .w = {2, 3}};
const struct claim twenty_one = {.x = {1, 21}, .w = {3, 7}};
const struct claim falsehood = {.x = {1, 21}, .w = {4, 5}};

uint32_t number(const uint8_t *bytes, size_t j) { return lomvuze_number(bytes + LOMVUZE_NUMBER_BYTES * j); }

void put(uint8_t *bytes, size_t j, uint32_t value) {
  for (size_t i = 0; i < LOMVUZE_NUMBER_BYTES; i++) bytes[LOMVUZE_NUMBER_BYTES * j + i] = (uint8_t)(value >> (8 * i));
}

uint32_t e_of(const struct pair *pair) { return number(pair->item + LOMVUZE_ITEM_E, 0); }

uint32_t x1_of(const struct pair *pair) { return number(pair->item + LOMVUZE_ITEM_X(0), 1); }

void need(const char *call, uint32_t verdict) {
  if (verdict == LOMVUZE_ACCEPTED) return;
  fprintf(stderr, "%s answered %u\n", call, (unsigned)verdict);
  exit(1);
}

void put_root(const struct circuit *c, struct pair *pair) {
  uint8_t codeword[LOMVUZE_CODEWORD_BYTES(MOST_K)];
  need("encode", lomvuze_encode(c->k, LOMVUZE_BUILT_IN_POINTS, pair->witness, LOMVUZE_WITNESS_BYTES(c->k),
                                codeword, LOMVUZE_CODEWORD_BYTES(c->k),
                                pair->item + LOMVUZE_ITEM_ROOT(c->m, c->n), LOMVUZE_DIGEST_BYTES));
}

/* g^position, where g = 31^((p - 1) / 4k). */
uint32_t point(uint32_t position) { return power(power(31, (LOMVUZE_P - 1) / 8), position); }

struct pair written(const struct circuit *c, struct claim claim) {
  struct pair pair = {{0}, {0}};
  put(pair.item + LOMVUZE_ITEM_E, 0, claim.e);
  if (c->m == 1) put(pair.item + LOMVUZE_ITEM_R, 0, claim.r);
  for (size_t j = 0; j < c->n; j++) put(pair.item + LOMVUZE_ITEM_X(c->m), j, claim.x[j]);
  for (size_t j = 0; j < c->k; j++) put(pair.witness, j, claim.w[j]);
  put_root(c, &pair);
  return pair;
}

/* (x1 + e) * 1 = x1 + e. */
struct pair twin(const struct pair *pair) {
  uint32_t e = e_of(pair), x = x1_of(pair);
  return written(&product, (struct claim){.e = e, .x = {1, x}, .w = {plus(x, e), 1}});
}

struct fold fold_of(const struct circuit *c, struct pair first, struct pair second, uint32_t quotient) {
  struct fold fold = {.circuit = c};
  size_t item = LOMVUZE_ITEM_BYTES(c->m, c->n), witness = LOMVUZE_WITNESS_BYTES(c->k);
  memcpy(fold.items, first.item, item);
  memcpy(fold.items + item, second.item, item);
  memcpy(fold.witnesses, first.witness, witness);
  memcpy(fold.witnesses + witness, second.witness, witness);
  put(fold.quotient, 0, quotient);
  return fold;
}

struct fold false_fold(uint32_t quotient) {
  return fold_of(&product, written(&product, six), written(&product, falsehood), quotient);
}

/* With two items L_0(a) = 1 - a, L_1(a) = a and Z(a) = a * (a - 1). */
static uint32_t combined(uint32_t a, uint32_t first, uint32_t second) {
  return plus(times(minus(1, a), first), times(a, second));
}

static void combine(uint32_t a, size_t count, const uint8_t *first, const uint8_t *second, uint8_t *out) {
  for (size_t j = 0; j < count; j++) put(out, j, combined(a, number(first, j), number(second, j)));
}

void fold_by_hand(struct fold *f) {
  const struct circuit *c = f->circuit;
  const uint8_t *first = f->items, *second = f->items + LOMVUZE_ITEM_BYTES(c->m, c->n);
  const size_t e = LOMVUZE_ITEM_E, r = LOMVUZE_ITEM_R, x = LOMVUZE_ITEM_X(c->m);
  uint32_t a = f->challenge, quotient = 0;
  combine(a, 1, first + e, second + e, f->out.item + e);
  combine(a, c->m, first + r, second + r, f->out.item + r);
  combine(a, c->n, first + x, second + x, f->out.item + x);
  combine(a, c->k, f->witnesses, f->witnesses + LOMVUZE_WITNESS_BYTES(c->k), f->out.witness);
  for (size_t j = c->m + 1; j > 0; j--) quotient = plus(times(quotient, a), number(f->quotient, j - 1));
  uint32_t z = times(a, minus(a, 1));
  put(f->out.item + e, 0, plus(e_of(&f->out), times(z, quotient)));
  put_root(c, &f->out);
}
