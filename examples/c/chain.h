/* The calls on stored statements, in their order, with the buffers that they write. Each function gives the verdict, or the answer, of its call. */
#ifndef CHAIN_H
#define CHAIN_H

#include "batch.h"

/* What the calls write, at the greatest sizes: `item` and `witness` are the new ones. */
static struct {
  uint8_t quotient[LOMVUZE_QUOTIENT_BYTES(LOMVUZE_MAX_M, LOMVUZE_MAX_L)];
  uint8_t item[LOMVUZE_ITEM_BYTES(LOMVUZE_MAX_M, LOMVUZE_MAX_N)];
  uint8_t witness[LOMVUZE_WITNESS_BYTES(LOMVUZE_MAX_K)];
  uint8_t opened[LOMVUZE_ALL_OPENINGS_BYTES(LOMVUZE_MAX_K, LOMVUZE_MAX_L, LOMVUZE_MAX_T(LOMVUZE_MAX_K))];
  uint8_t openings[LOMVUZE_ALL_OPENINGS_BYTES(LOMVUZE_MAX_K, LOMVUZE_MAX_L, LOMVUZE_MAX_T(LOMVUZE_MAX_K))];
} made;

static inline uint32_t make_quotient(const struct front *f, struct part witnesses) {
  return lomvuze_quotient(f->m, f->n, f->k, f->l,
                          LOMVUZE_BUILT_IN_POINTS,
                          f->a.bytes, f->a.length,
                          f->b.bytes, f->b.length,
                          f->c.bytes, f->c.length,
                          f->items.bytes, f->items.length,
                          witnesses.bytes, witnesses.length,
                          made.quotient, LOMVUZE_QUOTIENT_BYTES(f->m, f->l));
}

/* Writes the quotient again, the new item and the new witness. */
static inline uint32_t make_fold(const struct front *f, struct part witnesses, uint32_t challenge) {
  return lomvuze_fold(f->m, f->n, f->k, f->l, challenge,
                      LOMVUZE_BUILT_IN_POINTS,
                      f->a.bytes, f->a.length,
                      f->b.bytes, f->b.length,
                      f->c.bytes, f->c.length,
                      f->items.bytes, f->items.length,
                      witnesses.bytes, witnesses.length,
                      made.quotient, LOMVUZE_QUOTIENT_BYTES(f->m, f->l),
                      made.item, LOMVUZE_ITEM_BYTES(f->m, f->n),
                      made.witness, LOMVUZE_WITNESS_BYTES(f->k));
}

/* Opens the witness of item i, or the new one where i is l, at t positions. */
static inline uint32_t open_witness(const struct front *f, struct part witnesses, const uint8_t *positions, uint32_t i) {
  const uint8_t *witness = i < f->l ? witnesses.bytes + LOMVUZE_WITNESSES_BYTES(f->k, i) : made.witness;
  size_t each = LOMVUZE_OPENINGS_BYTES(f->k, f->t);
  return lomvuze_open(f->k, f->t,
                      LOMVUZE_BUILT_IN_POINTS,
                      witness, LOMVUZE_WITNESS_BYTES(f->k),
                      positions, LOMVUZE_POSITIONS_BYTES(f->t),
                      made.opened + i * each, each);
}

/* Puts the openings in the order in which they are verified. */
static inline uint32_t put_in_order(const struct front *f) {
  size_t all = LOMVUZE_ALL_OPENINGS_BYTES(f->k, f->l, f->t);
  return lomvuze_interleave(f->k, f->l, f->t, made.opened, all, made.openings, all);
}

static inline uint64_t verify_fold(const struct front *f, const uint8_t *positions, uint32_t challenge) {
  return lomvuze_verify(f->m, f->n, f->k, f->l, f->t, challenge,
                        f->items.bytes, f->items.length,
                        positions, LOMVUZE_POSITIONS_BYTES(f->t),
                        made.quotient, LOMVUZE_QUOTIENT_BYTES(f->m, f->l),
                        made.item, LOMVUZE_ITEM_BYTES(f->m, f->n),
                        made.openings, LOMVUZE_ALL_OPENINGS_BYTES(f->k, f->l, f->t));
}

static inline uint32_t decide_fold(const struct front *f) {
  return lomvuze_decide(f->m, f->n, f->k,
                        LOMVUZE_BUILT_IN_POINTS,
                        f->a.bytes, f->a.length,
                        f->b.bytes, f->b.length,
                        f->c.bytes, f->c.length,
                        made.item, LOMVUZE_ITEM_BYTES(f->m, f->n),
                        made.witness, LOMVUZE_WITNESS_BYTES(f->k));
}

#endif
