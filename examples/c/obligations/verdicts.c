/* Obligations 5 to 7: which bytes verify and decide get, and what is folded again. */
#include <string.h>

#include "modp.h"
#include "obligations.h"

/* 2 * 3 = 6 and 4 * 5 = 21, folded by hand at the next challenge with the quotient that is there, and opened at k different positions. */
static void fold_next(struct fold *f, struct picker *house) {
  f->challenge = pick_challenge(house);
  fold_by_hand(f);
  pick_positions(f, house);
}

/* Adds to the challenges at which every verdict was 0. */
static void count(struct tally *tally, bool verified, bool decided) {
  if (verified && decided) tally->accepted++;
}

/* 5. The item that is decided has e and x of the one that is verified, and another root. */
void other_item_decided(struct tally *without, struct tally *with) {
  struct fold f = false_fold(4);
  struct picker house = FIRST_PICKS;
  for (int i = 0; i < CHALLENGES; i++) {
    fold_next(&f, &house);
    struct pair other = twin(&f.out);
    count(without, verify(&f, without), decide(&product, &other, without));
    count(with, verify(&f, with), decide(&product, &f.out, with));
  }
}

/* 5. A circuit without entries says 0 = 0 of every item. The quotient is 0, so that the new item has e = 0. */
void other_circuit(struct tally *without, struct tally *with) {
  const struct circuit nothing = {.m = 0, .n = 2, .k = 2, .length = 0};
  struct fold f = false_fold(0);
  struct picker house = FIRST_PICKS;
  for (int i = 0; i < CHALLENGES; i++) {
    fold_next(&f, &house);
    count(without, verify(&f, without), decide(&nothing, &f.out, without));
    count(with, verify(&f, with), decide(&product, &f.out, with));
  }
}

/*
 * 5. w0 * w1 = x2, and the registrar picks x1 = 1. An item has as many bytes for m = 0, n = 3 as for m = 1, n = 2; then x0 is read as r, and x1, which
 * is 1 too, as the first input. With r = 1 row 0 has the weight 0.
 */
static const struct circuit two_ones = {0, 3, 4, LOMVUZE_ENTRIES_BYTES(1), {ENTRY(0, 3)}, {ENTRY(0, 4)}, {ENTRY(0, 2)}};

void other_sizes(struct tally *without, struct tally *with) {
  struct circuit resized = two_ones;
  resized.m = 1;
  resized.n = 2;
  struct claim honest = {.x = {1, 1, 6}, .w = {2, 3}}, bad = {.x = {1, 1, 21}, .w = {4, 5}};
  struct fold f = fold_of(&two_ones, written(&two_ones, honest), written(&two_ones, bad), 0);
  struct picker house = FIRST_PICKS;
  for (int i = 0; i < CHALLENGES; i++) {
    fold_next(&f, &house);
    count(without, verify(&f, without), decide(&resized, &f.out, without));
    count(with, verify(&f, with), decide(&two_ones, &f.out, with));
  }
}

/* Points over which the codeword of (first, 1) has the values that a witness has over the agreed ones: first + point i is value i. */
static void make_points_for(const uint8_t *witness, uint32_t first, uint8_t points[LOMVUZE_POINTS_BYTES(2)]) {
  uint8_t codeword[LOMVUZE_CODEWORD_BYTES(2)], root[LOMVUZE_DIGEST_BYTES];
  need("encode", lomvuze_encode(2, LOMVUZE_BUILT_IN_POINTS, witness, LOMVUZE_WITNESS_BYTES(2), codeword, sizeof codeword, root, sizeof root));
  for (size_t i = 0; i < 8; i++) put(points, i, minus(number(codeword, i), first));
}

/* 5. The item that is decided is the one that is verified, with the witness of its twin. Over points made for it, that one has the same root. */
void other_points(struct tally *without, struct tally *with) {
  struct fold f = false_fold(4);
  struct picker house = FIRST_PICKS;
  for (int i = 0; i < CHALLENGES; i++) {
    uint8_t points[LOMVUZE_POINTS_BYTES(2)];
    fold_next(&f, &house);
    struct pair other = f.out, holds = twin(&f.out);
    memcpy(other.witness, holds.witness, sizeof other.witness);
    make_points_for(f.out.witness, number(other.witness, 0), points);
    count(without, verify(&f, without), decide_over(points, sizeof points, &product, &other, without));
    count(with, verify(&f, with), decide(&product, &other, with));
  }
}

/* 6. Verify sees no circuit and no witness. */
void not_decided(struct tally *without, struct tally *with) {
  struct fold f = false_fold(4);
  struct picker house = FIRST_PICKS;
  for (int i = 0; i < CHALLENGES; i++) {
    fold_next(&f, &house);
    count(without, verify(&f, without), true);
    count(with, verify(&f, with), decide(&product, &f.out, with));
  }
}

/* 6. Decide sees one item. It has the e and x of the fold, and a witness that is no combination. */
void not_verified(struct tally *without, struct tally *with) {
  struct fold f = false_fold(4);
  struct picker house = FIRST_PICKS;
  for (int i = 0; i < CHALLENGES; i++) {
    fold_next(&f, &house);
    f.out = twin(&f.out);
    count(without, true, decide(&product, &f.out, without));
    count(with, verify(&f, with), decide(&product, &f.out, with));
  }
}

/* Folds an item with 3 * 7 = 21 at the next challenge, by hand where the call refuses, verifies the fold and decides the new item. */
static bool fold_above(struct pair item, struct picker *house, struct tally *tally) {
  struct fold above = fold_of(&product, item, written(&product, twenty_one), 4);
  above.challenge = pick_challenge(house);
  if (!fold(&above, tally)) fold_by_hand(&above);
  pick_positions(&above, house);
  bool verified = verify(&above, tally), decided = decide(&product, &above.out, tally);
  return verified && decided;
}

/* The test of obligation 7, for the sizes of w0 * w1 = x1. */
static bool same_bytes(const struct pair *above, const struct pair *verified) {
  return memcmp(above->item, verified->item, LOMVUZE_ITEM_BYTES(product.m, product.n)) == 0;
}

/* 7. The lower fold is verified. Above stands an item with e and x of its new item, and another root. */
void other_item_above(struct tally *without, struct tally *with) {
  struct fold f = false_fold(4);
  struct picker house = FIRST_PICKS;
  for (int i = 0; i < CHALLENGES; i++) {
    fold_next(&f, &house);
    struct pair above = twin(&f.out);
    count(without, verify(&f, without), fold_above(above, &house, without));
    /* The item is not taken, and the new item itself is folded. */
    if (!same_bytes(&above, &f.out)) above = f.out;
    count(with, verify(&f, with), fold_above(above, &house, with));
  }
}

/* 7. The lower fold's new item is no combination of its items, and nobody verifies it. */
void lower_not_verified(struct tally *without, struct tally *with) {
  struct fold f = false_fold(4);
  struct picker house = FIRST_PICKS;
  for (int i = 0; i < CHALLENGES; i++) {
    fold_next(&f, &house);
    f.out = twin(&f.out);
    count(without, true, fold_above(f.out, &house, without));
    count(with, verify(&f, with), fold_above(f.out, &house, with));
  }
}
