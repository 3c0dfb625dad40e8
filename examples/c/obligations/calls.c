/* The calls with their verdicts counted, and what the clearing house picks or draws. */
#include "obligations.h"

bool answered(struct tally *tally, enum call call, uint32_t verdict) {
  if (verdict > LAST_VERDICT) need("a call", verdict);
  if (verdict != LOMVUZE_ACCEPTED) tally->refused[call][verdict]++;
  return verdict == LOMVUZE_ACCEPTED;
}

bool cast(const struct circuit *c, struct claim claim, struct pair *pair, struct tally *tally) {
  uint8_t r[LOMVUZE_R_BYTES(MOST_M)], x[LOMVUZE_X_BYTES(MOST_N)];
  put(r, 0, claim.r);
  for (size_t j = 0; j < c->n; j++) put(x, j, claim.x[j]);
  for (size_t j = 0; j < c->k; j++) put(pair->witness, j, claim.w[j]);
  return answered(tally, CAST,
                  lomvuze_cast(c->m, c->n, c->k, LOMVUZE_BUILT_IN_POINTS, c->a, c->length, c->b, c->length, c->c, c->length,
                               r, LOMVUZE_R_BYTES(c->m), x, LOMVUZE_X_BYTES(c->n),
                               pair->witness, LOMVUZE_WITNESS_BYTES(c->k),
                               pair->item, LOMVUZE_ITEM_BYTES(c->m, c->n)));
}

bool fold(struct fold *f, struct tally *tally) {
  const struct circuit *c = f->circuit;
  return answered(tally, FOLD,
                  lomvuze_fold(c->m, c->n, c->k, FOLDED, f->challenge,
                               LOMVUZE_BUILT_IN_POINTS, c->a, c->length, c->b, c->length, c->c, c->length,
                               f->items, LOMVUZE_ITEMS_BYTES(c->m, c->n, FOLDED),
                               f->witnesses, LOMVUZE_WITNESSES_BYTES(c->k, FOLDED),
                               f->quotient, LOMVUZE_QUOTIENT_BYTES(c->m, FOLDED),
                               f->out.item, LOMVUZE_ITEM_BYTES(c->m, c->n),
                               f->out.witness, LOMVUZE_WITNESS_BYTES(c->k)));
}

bool verify(const struct fold *f, struct tally *tally) {
  const struct circuit *c = f->circuit;
  uint8_t positions[LOMVUZE_POSITIONS_BYTES(MOST_T)];
  uint8_t opened[LOMVUZE_ALL_OPENINGS_BYTES(MOST_K, FOLDED, MOST_T)], openings[sizeof opened];
  const uint8_t *witnesses[FOLDED + 1] = {f->witnesses, f->witnesses + LOMVUZE_WITNESS_BYTES(c->k), f->out.witness};
  size_t each = LOMVUZE_OPENINGS_BYTES(c->k, f->t), all = LOMVUZE_ALL_OPENINGS_BYTES(c->k, FOLDED, f->t);
  for (size_t q = 0; q < f->t; q++) put(positions, q, f->positions[q]);
  for (size_t i = 0; i < FOLDED + 1; i++)
    need("open", lomvuze_open(c->k, f->t, f->points[i].bytes, f->points[i].length, witnesses[i], LOMVUZE_WITNESS_BYTES(c->k),
                              positions, LOMVUZE_POSITIONS_BYTES(f->t), opened + i * each, each));
  need("interleave", lomvuze_interleave(c->k, FOLDED, f->t, opened, all, openings, all));
  uint64_t answer = lomvuze_verify(c->m, c->n, c->k, FOLDED, f->t, f->challenge,
                                   f->items, LOMVUZE_ITEMS_BYTES(c->m, c->n, FOLDED),
                                   positions, LOMVUZE_POSITIONS_BYTES(f->t),
                                   f->quotient, LOMVUZE_QUOTIENT_BYTES(c->m, FOLDED),
                                   f->out.item, LOMVUZE_ITEM_BYTES(c->m, c->n),
                                   openings, all);
  return answered(tally, VERIFY, LOMVUZE_VERDICT(answer));
}

bool decide_over(const uint8_t *points, size_t length, const struct circuit *c, const struct pair *pair, struct tally *tally) {
  return answered(tally, DECIDE,
                  lomvuze_decide(c->m, c->n, c->k, points, length, c->a, c->length, c->b, c->length, c->c, c->length,
                                 pair->item, LOMVUZE_ITEM_BYTES(c->m, c->n),
                                 pair->witness, LOMVUZE_WITNESS_BYTES(c->k)));
}

bool decide(const struct circuit *c, const struct pair *pair, struct tally *tally) {
  return decide_over(LOMVUZE_BUILT_IN_POINTS, c, pair, tally);
}

/* Park and Miller: the powers of 48271 modulo 2^31 - 1. */
static uint32_t next(uint32_t *state) {
  *state = (uint32_t)((uint64_t)*state * 48271 % 2147483647);
  return *state;
}

uint32_t pick_challenge(struct picker *picker) {
  for (;;) {
    uint32_t a = next(&picker->challenges);
    if (a >= FOLDED && a < LOMVUZE_P) return a;
  }
}

void pick_positions(struct fold *f, struct picker *picker) {
  bool taken[4 * MOST_K] = {false};
  for (f->t = 0; f->t < f->circuit->k;) {
    uint32_t position = next(&picker->positions) % (4 * f->circuit->k);
    if (taken[position]) continue;
    taken[position] = true;
    f->positions[f->t++] = position;
  }
}

uint32_t drawn_r(const struct circuit *c, const struct pair *pair) {
  uint8_t r[LOMVUZE_R_BYTES(MOST_M)];
  need("draw_r", lomvuze_draw_r(c->m, c->n, pair->item + LOMVUZE_ITEM_ROOT(c->m, c->n), LOMVUZE_DIGEST_BYTES,
                                pair->item + LOMVUZE_ITEM_X(c->m), LOMVUZE_X_BYTES(c->n), r, LOMVUZE_R_BYTES(c->m)));
  return number(r, 0);
}

void draw_challenge(struct fold *f) {
  const struct circuit *c = f->circuit;
  uint8_t challenge[LOMVUZE_CHALLENGE_BYTES];
  need("draw_challenge", lomvuze_draw_challenge(c->m, c->n, c->k, FOLDED,
                                                f->items, LOMVUZE_ITEMS_BYTES(c->m, c->n, FOLDED),
                                                f->quotient, LOMVUZE_QUOTIENT_BYTES(c->m, FOLDED),
                                                f->seed, sizeof f->seed, challenge, sizeof challenge));
  f->challenge = number(challenge, 0);
}

void draw_positions(struct fold *f, uint32_t t) {
  const struct circuit *c = f->circuit;
  uint8_t positions[LOMVUZE_POSITIONS_BYTES(MOST_T)];
  need("draw_positions", lomvuze_draw_positions(c->k, FOLDED, t, f->challenge, f->seed, sizeof f->seed,
                                                f->out.item + LOMVUZE_ITEM_ROOT(c->m, c->n), LOMVUZE_DIGEST_BYTES,
                                                positions, LOMVUZE_POSITIONS_BYTES(t)));
  f->t = t;
  for (uint32_t q = 0; q < t; q++) f->positions[q] = number(positions, q);
}

bool enough_different(const struct fold *f) {
  bool taken[MOST_T] = {false};
  uint32_t different = 0;
  for (uint32_t q = 0; q < f->t; q++) {
    if (!taken[f->positions[q]]) different++;
    taken[f->positions[q]] = true;
  }
  return different >= f->circuit->k;
}

void finish(const struct fold *f, struct tally *tally) {
  bool verified = verify(f, tally), decided = decide(f->circuit, &f->out, tally);
  if (verified && decided) tally->accepted++;
}

void run_chains(struct fold *f, struct tally *tally) {
  struct picker house = FIRST_PICKS;
  for (int i = 0; i < CHALLENGES; i++) {
    f->challenge = pick_challenge(&house);
    if (!fold(f, tally)) fold_by_hand(f);
    pick_positions(f, &house);
    finish(f, tally);
  }
}
