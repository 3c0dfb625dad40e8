/* Challenge and positions, drawn from what is verified. */
#ifndef DRAW_H
#define DRAW_H

#include "batch.h"

/* Draws the challenge from the items of the file and a quotient. */
static inline bool draw_challenge(const struct front *f, const uint8_t *quotient, struct drawn *drawn) {
  uint8_t challenge[LOMVUZE_CHALLENGE_BYTES];
  if (!report("draw_challenge", lomvuze_draw_challenge(f->m, f->n, f->k, f->l,
                                                       f->items.bytes, f->items.length,
                                                       quotient, LOMVUZE_QUOTIENT_BYTES(f->m, f->l),
                                                       drawn->seed, sizeof drawn->seed,
                                                       challenge, sizeof challenge)))
    return false;
  drawn->challenge = lomvuze_number(challenge);
  printf("challenge: %" PRIu32 "\n", drawn->challenge);
  return true;
}

/* How many of the positions are different. */
static inline uint32_t count_different(const struct front *f, const uint8_t *positions) {
  bool taken[LOMVUZE_MAX_T(LOMVUZE_MAX_K)] = {false};
  uint32_t count = 0;
  for (uint32_t j = 0; j < f->t; j++) {
    bool *place = &taken[lomvuze_number(positions + LOMVUZE_POSITIONS_BYTES(j))];
    if (!*place) count++;
    *place = true;
  }
  return count;
}

/* Draws the positions from seed, challenge and the root of the new item; whether at least k of them are different. */
static inline bool draw_positions(const struct front *f, const uint8_t *new_item, struct drawn *drawn) {
  if (!report("draw_positions", lomvuze_draw_positions(f->k, f->l, f->t, drawn->challenge,
                                                       drawn->seed, sizeof drawn->seed,
                                                       new_item + LOMVUZE_ITEM_ROOT(f->m, f->n), LOMVUZE_DIGEST_BYTES,
                                                       drawn->positions, LOMVUZE_POSITIONS_BYTES(f->t))))
    return false;
  uint32_t different = count_different(f, drawn->positions);
  printf("positions:");
  for (uint32_t j = 0; j < f->t; j++) printf(" %" PRIu32, lomvuze_number(drawn->positions + LOMVUZE_POSITIONS_BYTES(j)));
  printf("\ndifferent positions: %" PRIu32 " of %" PRIu32 ", and at least k = %" PRIu32 " have to be\n", different, f->t, f->k);
  return different >= f->k;
}

#endif
