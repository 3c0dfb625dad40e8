/* Obligations 3 and 4: what the clearing house picks or draws, and when. */
#include "modp.h"
#include "obligations.h"

/* The value of a pair, for the circuit w0 * w1 = x1. */
static uint32_t value(const struct pair *pair) {
  return minus(times(number(pair->witness, 0), number(pair->witness, 1)), x1_of(pair));
}

/* The quotient with which the fold holds at this one challenge. Both items have e = 0, so e has to be Z(a) * quotient. */
static void make_quotient_for(struct fold *f, uint32_t a) {
  f->challenge = a;
  fold_by_hand(f);
  put(f->quotient, 0, times(value(&f->out), inverse(times(a, minus(a, 1)))));
}

/* 3. The quotient is made for the challenge that the registrar expects. With the obligation kept, another one is picked, or the challenge is drawn. */
static void try_challenges(bool drawn, struct tally *without, struct tally *with) {
  struct fold f = false_fold(0);
  struct picker known = FIRST_PICKS, house = {3, 4};
  for (int i = 0; i < CHALLENGES; i++) {
    make_quotient_for(&f, pick_challenge(&known));
    fold_by_hand(&f);
    pick_positions(&f, &house);
    finish(&f, without);

    if (drawn)
      draw_challenge(&f);
    else
      f.challenge = pick_challenge(&house);
    fold_by_hand(&f);
    pick_positions(&f, &house);
    finish(&f, with);
  }
}

void challenge_known_before(struct tally *without, struct tally *with) { try_challenges(false, without, with); }

void challenge_not_drawn(struct tally *without, struct tally *with) { try_challenges(true, without, with); }

/*
 * Looks for a new witness with which the new item holds and whose codeword is as before at one position. With v = (-point, 1), whose codeword is
 * 0 there, it is w + s * v: the value is e where v0 * v1 * s^2 + (w0 * v1 + w1 * v0) * s + (value of w - e) = 0. Whether there is such an s;
 * without one the new item is left as it is.
 */
static bool bend(struct pair *pair, uint32_t position) {
  uint32_t w0 = number(pair->witness, 0), w1 = number(pair->witness, 1);
  uint32_t v0 = minus(0, point(position)), v1 = 1;
  uint32_t a = times(v0, v1), b = plus(times(w0, v1), times(w1, v0)), c = minus(value(pair), e_of(pair));
  uint32_t discriminant = minus(times(b, b), times(4, times(a, c)));
  if (!is_square(discriminant)) return false;
  uint32_t s = times(minus(square_root(discriminant), b), inverse(times(2, a)));
  put(pair->witness, 0, plus(w0, times(s, v0)));
  put(pair->witness, 1, plus(w1, times(s, v1)));
  put_root(&product, pair);
  return true;
}

/* The position that the registrar expects, and the quotient that is fixed before the challenge. */
enum { EXPECTED = 3, QUOTIENT = 4 };

/* Opens the fold at the same position t times. */
static void open_at(struct fold *f, uint32_t position, uint32_t t) {
  f->t = t;
  for (uint32_t q = 0; q < t; q++) f->positions[q] = position;
}

/* 4. The fold is opened at t positions: t times the expected one, or one that is picked after. With the obligation kept, at k different ones. */
static void try_positions(uint32_t t, bool picked, struct tally *without, struct tally *with) {
  struct fold f = false_fold(QUOTIENT);
  struct picker house = FIRST_PICKS;
  without->expected = 0;
  for (int i = 0; i < CHALLENGES; i++) {
    f.challenge = pick_challenge(&house);
    fold_by_hand(&f);
    bool found = bend(&f.out, EXPECTED);
    pick_positions(&f, &house);
    finish(&f, with);

    open_at(&f, picked ? f.positions[0] : EXPECTED, t);
    if (found && f.positions[0] == EXPECTED) without->expected++;
    finish(&f, without);
  }
}

void position_known_before(struct tally *without, struct tally *with) { try_positions(1, false, without, with); }

void position_twice(struct tally *without, struct tally *with) { try_positions(2, false, without, with); }

void position_too_few(struct tally *without, struct tally *with) { try_positions(1, true, without, with); }

/* The fold with this quotient, by hand at the challenge that is drawn. Each quotient has its own. */
static void fold_drawn(struct fold *f, uint32_t quotient) {
  put(f->quotient, 0, quotient);
  draw_challenge(f);
  fold_by_hand(f);
}

/* With the obligation kept: 4k positions are drawn from the new root, and at least k of them are different. */
static void finish_drawn(struct fold *f, struct tally *with) {
  draw_positions(f, 4 * f->circuit->k);
  if (enough_different(f)) finish(f, with);
}

/* 4. The registrar lends the position that it expects. With the obligation kept, the positions are drawn. */
void position_not_drawn(struct tally *without, struct tally *with) {
  struct fold f = false_fold(0);
  without->expected = 0;
  for (uint32_t i = 0; i < CHALLENGES; i++) {
    fold_drawn(&f, i);
    if (bend(&f.out, EXPECTED)) without->expected++;
    finish_drawn(&f, with);
    open_at(&f, EXPECTED, 1);
    finish(&f, without);
  }
}

/* Draws t positions from the root of each new witness that a position does not show, until all t are that position. */
static bool bend_to_draw(struct fold *f, uint32_t t) {
  const struct pair combined = f->out;
  for (uint32_t position = 0; position < 4 * f->circuit->k; position++) {
    f->out = combined;
    if (!bend(&f->out, position)) continue;
    draw_positions(f, t);
    uint32_t suits = 0;
    while (suits < t && f->positions[suits] == position) suits++;
    if (suits == t) return true;
  }
  return false;
}

/* 4. All is drawn, but the registrar goes on to the next quotient until the positions suit. Only k different ones end that. */
static void try_draws(uint32_t t, struct tally *without, struct tally *with) {
  struct fold f = false_fold(0);
  uint32_t quotient = 0;
  for (int i = 0; i < CHALLENGES; i++) {
    do {
      fold_drawn(&f, quotient++);
    } while (!bend_to_draw(&f, t));
    finish(&f, without);
    finish_drawn(&f, with);
  }
}

void position_tried(struct tally *without, struct tally *with) { try_draws(1, without, with); }

void positions_not_counted(struct tally *without, struct tally *with) { try_draws(2, without, with); }
