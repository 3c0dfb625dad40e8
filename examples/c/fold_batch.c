/*
 * Runs the whole chain on stored statements, with drawn numbers: draws the challenge from l items and their quotient and folds them into one, draws
 * the positions from the new item's root, opens each witness and the new one, verifies the fold and decides the new item (README.md gives the formats).
 * It stops at the first verdict that is not 0, at an item with an e that is not 0 or an r that is not the drawn one, and at fewer than k different
 * positions.
 */
#include "agreed.h"
#include "batch.h"
#include "chain.h"
#include "draw.h"

static const char help[] =
    "usage: fold_batch AGREED FILE\n"
    "  AGREED  the circuit that was agreed on: a text such as examples/c/agreed.circuit\n"
    "  FILE    statements with their witnesses: such as examples/c/statements.bin\n"
    "Exit status: 0 where the fold is accepted, 1 where it is refused, 2 where a file cannot be used, 3 where FILE has another circuit than AGREED.\n";

static struct drawn drawn;

static void print_x(const struct front *f, const uint8_t *item) {
  const uint8_t *x = item + LOMVUZE_ITEM_X(f->m);
  printf("x =");
  for (uint32_t j = 0; j < f->n; j++) printf(" %" PRIu32, lomvuze_number(x + j * LOMVUZE_NUMBER_BYTES));
  printf("\n");
}

static void print_statements(const struct front *f) {
  printf("l = %" PRIu32 " items, to be opened at t = %" PRIu32 " positions\n", f->l, f->t);
  for (uint32_t i = 0; i < f->l; i++) {
    printf("item %" PRIu32 ": ", i);
    print_x(f, item_of(f, i));
  }
}

static bool fold(const struct front *f, struct part witnesses) {
  if (!report("fold", make_fold(f, witnesses, drawn.challenge))) return false;
  printf("%" PRIu32 " items folded into one: e = %" PRIu32 ", ", f->l, lomvuze_number(made.item + LOMVUZE_ITEM_E));
  print_x(f, made.item);
  return true;
}

/* Opens each witness and the new one, and puts the openings in order. */
static bool open_all(const struct front *f, struct part witnesses) {
  for (uint32_t i = 0; i <= f->l; i++) {
    char call[32] = "new item, open";
    uint32_t verdict = open_witness(f, witnesses, drawn.positions, i);
    if (i < f->l) snprintf(call, sizeof call, "item %" PRIu32 ", open", i);
    if (verdict != LOMVUZE_ACCEPTED) return report(call, verdict);
  }
  return report("each item and the new one, open", LOMVUZE_ACCEPTED) && report("interleave", put_in_order(f));
}

static bool run(const struct front *f, struct part witnesses) {
  return are_statements(f) && report("quotient", make_quotient(f, witnesses)) && draw_challenge(f, made.quotient, &drawn) && fold(f, witnesses) &&
         draw_positions(f, made.item, &drawn) && open_all(f, witnesses) && report_verify(f, verify_fold(f, drawn.positions, drawn.challenge)) &&
         report("decide", decide_fold(f));
}

int main(int argc, char **argv) {
  struct agreed agreed;
  struct front f;
  struct rest rest;
  if (argc != 3) return usage(argc, argv, help);
  if (!read_agreed(argv[1], &agreed) || !start(argv[2], STATEMENTS, &f, &rest)) return UNUSABLE;
  struct part witnesses = take(&rest, LOMVUZE_WITNESSES_BYTES(f.k, f.l));
  if (!finished(&rest)) return UNUSABLE;
  if (!is_agreed(&agreed, &f)) return OTHER_CIRCUIT;
  print_statements(&f);
  return conclude(run(&f, witnesses), &f);
}
