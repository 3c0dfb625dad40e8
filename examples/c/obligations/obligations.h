/*
 * What the runs share: circuits, items with their witnesses, folds of two items, and the count of verdicts.
 */
#ifndef OBLIGATIONS_H
#define OBLIGATIONS_H

#include <stdbool.h>
#include <stdint.h>

#include "lomvuze.h"

/* How many challenges a run tries that sets no other number. */
enum { CHALLENGES = 2000 };

/* The greatest sizes of the runs. */
#define MOST_M 1u
#define MOST_N 3u
#define MOST_K 4u
#define MOST_T LOMVUZE_MAX_T(MOST_K)
#define FOLDED 2u

/* ---- What is folded */

/* A circuit with its sizes. Each of its three lists has `length` bytes. */
struct circuit {
  uint32_t m, n, k;
  size_t length;
  uint8_t a[LOMVUZE_ENTRIES_BYTES(2)], b[LOMVUZE_ENTRIES_BYTES(2)], c[LOMVUZE_ENTRIES_BYTES(2)];
};

/* An entry's bytes: a row and a column below 256, and the value 1. */
#define ENTRY(row, column) row, 0, 0, 0, column, 0, 0, 0, 1, 0, 0, 0

/* w0 * w1 = x1. The columns are x0, which is 1 in every item, x1, w0 and w1. */
extern const struct circuit product;

/* A claim in numbers. */
struct claim {
  uint32_t e, r, x[MOST_N], w[MOST_K];
};

/* 2 * 3 = 6, 3 * 7 = 21 and 4 * 5 = 21 with e = 0. */
extern const struct claim six, twenty_one, falsehood;

/* An item and its witness, as the calls read them. */
struct pair {
  uint8_t item[LOMVUZE_ITEM_BYTES(MOST_M, MOST_N)];
  uint8_t witness[LOMVUZE_WITNESS_BYTES(MOST_K)];
};

/* The item of a claim as anybody can write it: the root is that of the witness, and nothing else is tested. */
struct pair written(const struct circuit *circuit, struct claim claim);

/* For the circuit w0 * w1 = x1: an item with the same e and x that holds, and has another witness and root. */
struct pair twin(const struct pair *pair);

/* Number j of a buffer, read and written. */
uint32_t number(const uint8_t *bytes, size_t j);
void put(uint8_t *bytes, size_t j, uint32_t value);

/* An item's e, and x1 for the circuits with m = 0. */
uint32_t e_of(const struct pair *pair);
uint32_t x1_of(const struct pair *pair);

/* Puts the root of a pair's witness into its item. */
void put_root(const struct circuit *circuit, struct pair *pair);

/* The built-in point of a position, for k = 2. */
uint32_t point(uint32_t position);

/* ---- Verdicts */

enum call { CAST, FOLD, VERIFY, DECIDE, CALLS };

enum { LAST_VERDICT = LOMVUZE_FIRST_INPUT };

/*
 * How many challenges are tried, at how many every call that the clearing house ran had the verdict 0, at how many it must be so, and how often a
 * call had one that is not 0. Casting and folding are the registrar's calls: where they refuse, the rest is done by hand.
 */
struct tally {
  uint32_t challenges, accepted, expected;
  uint32_t refused[CALLS][LAST_VERDICT + 1];
};

/* For calls that no run expects to refuse: ends the program where one does. */
void need(const char *call, uint32_t verdict);

/* Counts a verdict; whether it is 0. */
bool answered(struct tally *tally, enum call call, uint32_t verdict);

/* ---- What the clearing house picks. Anybody can foretell these numbers: they let every run print the same, and are not for a service. */

struct picker {
  uint32_t challenges, positions;
};

/* Where each run starts. */
#define FIRST_PICKS {1, 2}

uint32_t pick_challenge(struct picker *picker);

/* ---- Folds of two items */

/* Points, or none for the built-in ones. */
struct points {
  uint8_t bytes[LOMVUZE_POINTS_BYTES(MOST_K)];
  size_t length;
};

/* `points` has the points over which each item's root, and then the new one's, is that of its witness: none but where a run sets them. */
struct fold {
  const struct circuit *circuit;
  uint8_t items[LOMVUZE_ITEMS_BYTES(MOST_M, MOST_N, FOLDED)];
  uint8_t witnesses[LOMVUZE_WITNESSES_BYTES(MOST_K, FOLDED)];
  struct points points[FOLDED + 1];
  uint8_t quotient[LOMVUZE_QUOTIENT_BYTES(MOST_M, FOLDED)];
  uint8_t seed[LOMVUZE_SEED_BYTES];
  uint32_t challenge;
  struct pair out;
  uint32_t t, positions[MOST_T];
};

/* Two items to fold, with a quotient whose coefficient of X^0 is given and whose others are 0. */
struct fold fold_of(const struct circuit *circuit, struct pair first, struct pair second, uint32_t quotient);

/* 2 * 3 = 6 and 4 * 5 = 21, to fold with such a quotient. */
struct fold false_fold(uint32_t quotient);

/* k different positions. */
void pick_positions(struct fold *fold, struct picker *picker);

/* What is drawn in place of picks: r of an item with m = 1; seed and challenge of a fold; t positions, from its seed, challenge and new root. */
uint32_t drawn_r(const struct circuit *circuit, const struct pair *pair);
void draw_challenge(struct fold *fold);
void draw_positions(struct fold *fold, uint32_t t);

/* Whether at least k of the positions are different: drawn ones repeat. */
bool enough_different(const struct fold *fold);

/* New item and witness at the fold's challenge, for whatever quotient is there: what verify tests, and not that the items hold. */
void fold_by_hand(struct fold *fold);

/*
 * The calls. Each counts its verdict and says whether it is 0; `verify` opens the three witnesses first, each over its points of the fold. The points
 * that were agreed on are the built-in ones; `decide_over` is lent others.
 */
bool cast(const struct circuit *circuit, struct claim claim, struct pair *pair, struct tally *tally);
bool fold(struct fold *fold, struct tally *tally);
bool verify(const struct fold *fold, struct tally *tally);
bool decide(const struct circuit *circuit, const struct pair *pair, struct tally *tally);
bool decide_over(const uint8_t *points, size_t length, const struct circuit *circuit, const struct pair *pair, struct tally *tally);

/* Verifies a fold and decides its new item; counts where both verdicts are 0. */
void finish(const struct fold *fold, struct tally *tally);

/* Folds at each challenge, by hand where the call refuses, verifies the fold and decides the new item. */
void run_chains(struct fold *f, struct tally *tally);

/* ---- The runs: without the obligation kept, and with it */

typedef void run(struct tally *without, struct tally *with);

run e_of_a_fold, r_of_the_registrar, r_known_before, r_not_compared;
run challenge_known_before, challenge_not_drawn;
run position_known_before, position_twice, position_too_few, position_not_drawn, position_tried, positions_not_counted;
run positions_of_each_fold;
run other_item_decided, other_circuit, other_sizes, other_points;
run not_decided, not_verified;
run other_item_above, lower_not_verified, positions_of_each_layer;

#endif
