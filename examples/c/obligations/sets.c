/* Obligations 4 and 7: folds of one list, and of two layers, which open the same two positions, or others in each fold. */
#include <string.h>

#include "modp.h"
#include "obligations.h"

/* w0 * w0 = x1. The columns are x0, which is 1, x1, w0 and w1. */
static const struct circuit square = {0, 2, 2, LOMVUZE_ENTRIES_BYTES(1), {ENTRY(0, 2)}, {ENTRY(0, 2)}, {ENTRY(0, 1)}};

/* 2 * 2 = 4; and x1 = 11, which is no square modulo p, so that this item holds with no witness. Both have e = 0. */
enum { FOUR = 4, NO_SQUARE = 11, QUOTIENT = 5 };

/* The second item's root is over the values 1 to 8. They are no codeword: no three of them are values of one witness. */
enum { VALUES = 8, SETS = VALUES * (VALUES - 1) / 2 };

static uint32_t value_at(uint32_t position) { return position + 1; }

/*
 * Puts a root over any different values into an item, for k = 2: over points that are the values themselves, (0, 1) has them as its codeword. Writes
 * this witness and these points too, with which the root is opened.
 */
static void put_root_over(const uint8_t values[LOMVUZE_CODEWORD_BYTES(2)], struct pair *pair, struct points *points) {
  uint8_t codeword[LOMVUZE_CODEWORD_BYTES(2)];
  put(pair->witness, 0, 0);
  put(pair->witness, 1, 1);
  points->length = LOMVUZE_POINTS_BYTES(2);
  memcpy(points->bytes, values, points->length);
  need("encode", lomvuze_encode(2, points->bytes, points->length, pair->witness, LOMVUZE_WITNESS_BYTES(2), codeword, sizeof codeword,
                                pair->item + LOMVUZE_ITEM_ROOT(0, 2), LOMVUZE_DIGEST_BYTES));
}

static struct fold list_over_values(void) {
  struct pair first = written(&square, (struct claim){.x = {1, FOUR}, .w = {2, 3}});
  struct pair second = written(&square, (struct claim){.x = {1, NO_SQUARE}});
  uint8_t values[LOMVUZE_CODEWORD_BYTES(2)];
  struct points points;
  for (uint32_t i = 0; i < VALUES; i++) put(values, i, value_at(i));
  put_root_over(values, &second, &points);
  struct fold f = fold_of(&square, first, second, QUOTIENT);
  f.points[1] = points;
  return f;
}

/* Two positions, the one witness whose codeword has the second item's values there, and the challenge at which the fold holds with it. */
struct set {
  uint32_t positions[2];
  uint8_t witness[LOMVUZE_WITNESS_BYTES(2)];
  uint32_t challenge;
};

/*
 * With d = w0 - 2 the new w0 is 2 + a * d, the new x1 is 4 + a * (11 - 4), and the new e is a * (a - 1) * quotient. The value less e is
 * a * (4 * d - (11 - 4) + quotient + a * (d * d - quotient)). It is 0 at a = 0, which is not permitted, and at one other challenge.
 */
static uint32_t challenge_for(uint32_t w0) {
  uint32_t d = minus(w0, 2);
  return times(minus(NO_SQUARE - FOUR, plus(times(4, d), QUOTIENT)), inverse(minus(times(d, d), QUOTIENT)));
}

static struct set set_of(uint32_t i, uint32_t j) {
  uint32_t w1 = times(minus(value_at(i), value_at(j)), inverse(minus(point(i), point(j))));
  uint32_t w0 = minus(value_at(i), times(w1, point(i)));
  struct set set = {.positions = {i, j}, .challenge = challenge_for(w0)};
  put(set.witness, 0, w0);
  put(set.witness, 1, w1);
  return set;
}

static void open_two(struct fold *f, const uint32_t positions[2]) {
  f->t = 2;
  memcpy(f->positions, positions, 2 * sizeof positions[0]);
}

/* Folds by hand with the witness that two positions show in place of item i's own, and opens these two. */
static void fold_as_shown(struct fold *f, size_t i, const uint8_t witness[LOMVUZE_WITNESS_BYTES(2)], const uint32_t positions[2]) {
  struct fold shown = *f;
  memcpy(shown.witnesses + LOMVUZE_WITNESSES_BYTES(2, i), witness, LOMVUZE_WITNESS_BYTES(2));
  fold_by_hand(&shown);
  f->out = shown.out;
  open_two(f, positions);
}

/* The sets of two positions, those with a challenge that an earlier one has left out; how many there are. */
static size_t find_sets(struct set sets[SETS]) {
  size_t found = 0;
  for (uint32_t i = 0; i < VALUES; i++)
    for (uint32_t j = i + 1; j < VALUES; j++) {
      struct set set = set_of(i, j);
      size_t s = 0;
      while (s < found && sets[s].challenge != set.challenge) s++;
      if (s == found) sets[found++] = set;
    }
  return found;
}

/*
 * 4. Each fold opens two positions of its own, at the challenge that passes there. With the obligation kept, every fold opens positions 0 and 1, at
 * the same challenges: the one for 0 and 1 passes.
 */
void positions_of_each_fold(struct tally *without, struct tally *with) {
  struct fold f = list_over_values();
  struct set sets[SETS];
  size_t found = find_sets(sets);
  without->challenges = without->expected = with->challenges = SETS;
  with->expected = 1;
  if (is_square(NO_SQUARE)) return; /* the item would be true: no count is as it must be */
  for (size_t s = 0; s < found; s++) {
    f.challenge = sets[s].challenge;
    fold_as_shown(&f, 1, sets[s].witness, sets[s].positions);
    finish(&f, without);
    fold_as_shown(&f, 1, sets[0].witness, sets[0].positions);
    finish(&f, with);
  }
}

/* Folds the new item of a verified fold with 3 * 7 = 21, by the witness that two positions show for it, and with the quotient of a twin that holds. */
static bool accepted_above(const struct fold *lower, uint32_t challenge, const struct pair *shown, const uint32_t positions[2], struct tally *tally) {
  struct pair other = written(&product, twenty_one);
  struct fold honest = fold_of(&product, twin(&lower->out), other, 0);
  honest.challenge = challenge;
  fold(&honest, tally);
  struct fold above = fold_of(&product, lower->out, other, number(honest.quotient, 0));
  above.challenge = challenge;
  above.points[0] = lower->points[FOLDED];
  fold_as_shown(&above, 0, shown->witness, positions);
  bool verified = verify(&above, tally), decided = decide(&product, &above.out, tally);
  return verified && decided;
}

static void write_codeword(const struct pair *pair, uint8_t codeword[LOMVUZE_CODEWORD_BYTES(2)]) {
  uint8_t root[LOMVUZE_DIGEST_BYTES];
  need("encode", lomvuze_encode(2, LOMVUZE_BUILT_IN_POINTS, pair->witness, LOMVUZE_WITNESS_BYTES(2),
                                codeword, LOMVUZE_CODEWORD_BYTES(2), root, sizeof root));
}

/*
 * 7. The lower fold is verified at the positions 0 and 1, and its new item is folded again, byte by byte. The root of that item is over the values of the
 * combination at 0 and 1, and over those of its twin at the others, of which the upper fold opens two. With the obligation kept, it opens 0 and 1.
 */
void positions_of_each_layer(struct tally *without, struct tally *with) {
  const uint32_t first_two[2] = {0, 1}, next_two[2] = {2, 3};
  struct fold f = false_fold(4);
  struct picker house = FIRST_PICKS;
  for (int i = 0; i < CHALLENGES; i++) {
    uint8_t values[LOMVUZE_CODEWORD_BYTES(2)], of_combination[LOMVUZE_CODEWORD_BYTES(2)];
    f.challenge = pick_challenge(&house);
    fold_by_hand(&f);
    const struct pair combination = f.out, holds = twin(&f.out);
    write_codeword(&holds, values);
    write_codeword(&combination, of_combination);
    memcpy(values, of_combination, 2 * LOMVUZE_NUMBER_BYTES);
    put_root_over(values, &f.out, &f.points[FOLDED]);
    open_two(&f, first_two);
    uint32_t above = pick_challenge(&house);
    bool verified = verify(&f, without), accepted = accepted_above(&f, above, &holds, next_two, without);
    if (verified && accepted) without->accepted++;
    verified = verify(&f, with);
    accepted = accepted_above(&f, above, &combination, first_two, with);
    if (verified && accepted) with->accepted++;
  }
}
