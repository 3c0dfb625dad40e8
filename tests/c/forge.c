/*
 * Writes the batch of a registrar that brings its own circuit: the statements of a file, of which the last says the total 999999999, folded over a
 * circuit without entries, which every item with e = 0 satisfies. All is drawn as it should be, so that with that circuit every verdict is 0.
 *
 *   forge empty STATEMENTS FILE     the batch says that the circuit has no entries
 *   forge stated STATEMENTS FILE    the batch says that the circuit is that of the statements
 */
#include "../../examples/c/batch.h"
#include "../../examples/c/chain.h"
#include "../../examples/c/draw.h"
#include "require.h"

enum { TOTAL = 1, CLAIMED = 999999999 };

static uint8_t items[LOMVUZE_ITEMS_BYTES(LOMVUZE_MAX_M, LOMVUZE_MAX_N, LOMVUZE_MAX_L)];

static void put(uint8_t *bytes, uint32_t value) {
  for (size_t i = 0; i < LOMVUZE_NUMBER_BYTES; i++) bytes[i] = (uint8_t)(value >> (8 * i));
}

/* The items with another total in the last one, and with the r that is drawn for it. */
static void change_total(struct front *f) {
  memcpy(items, f->items.bytes, f->items.length);
  uint8_t *item = items + LOMVUZE_ITEMS_BYTES(f->m, f->n, f->l - 1);
  put(item + LOMVUZE_ITEM_X(f->m) + LOMVUZE_X_BYTES(TOTAL), CLAIMED);
  REQUIRE(draw_r_of(f, item, item + LOMVUZE_ITEM_R) == LOMVUZE_ACCEPTED);
  f->items.bytes = items;
}

static void fold_all(const struct front *f, struct part witnesses) {
  struct drawn drawn;
  REQUIRE(make_quotient(f, witnesses) == LOMVUZE_ACCEPTED);
  REQUIRE(draw_challenge(f, made.quotient, &drawn));
  REQUIRE(make_fold(f, witnesses, drawn.challenge) == LOMVUZE_ACCEPTED);
  REQUIRE(draw_positions(f, made.item, &drawn));
  for (uint32_t i = 0; i <= f->l; i++) REQUIRE(open_witness(f, witnesses, drawn.positions, i) == LOMVUZE_ACCEPTED);
  REQUIRE(put_in_order(f) == LOMVUZE_ACCEPTED);
  REQUIRE(LOMVUZE_VERDICT(verify_fold(f, drawn.positions, drawn.challenge)) == LOMVUZE_ACCEPTED);
  REQUIRE(decide_fold(f) == LOMVUZE_ACCEPTED);
}

/* Writes a batch that names the circuit of `stated`. */
static bool write_batch(const char *name, const struct front *f, const struct front *stated) {
  const struct part lists[3] = {stated->a, stated->b, stated->c};
  const uint32_t sizes[5] = {f->m, f->n, f->k, f->l, f->t};
  uint8_t header[HEADER_NUMBERS * LOMVUZE_NUMBER_BYTES];
  for (size_t i = 0; i < 5; i++) put(header + i * LOMVUZE_NUMBER_BYTES, sizes[i]);
  for (size_t i = 0; i < 3; i++) put(header + (5 + i) * LOMVUZE_NUMBER_BYTES, (uint32_t)(lists[i].length / LOMVUZE_ENTRIES_BYTES(1)));
  FILE *stream = fopen(name, "wb");
  if (stream == NULL) return false;
  fwrite(BATCH, 1, LETTERS, stream);
  fwrite(header, 1, sizeof header, stream);
  for (size_t i = 0; i < 3; i++) fwrite(lists[i].bytes, 1, lists[i].length, stream);
  fwrite(f->items.bytes, 1, f->items.length, stream);
  fwrite(made.quotient, 1, LOMVUZE_QUOTIENT_BYTES(f->m, f->l), stream);
  fwrite(made.item, 1, LOMVUZE_ITEM_BYTES(f->m, f->n), stream);
  fwrite(made.openings, 1, LOMVUZE_ALL_OPENINGS_BYTES(f->k, f->l, f->t), stream);
  fwrite(made.witness, 1, LOMVUZE_WITNESS_BYTES(f->k), stream);
  return fclose(stream) == 0;
}

int main(int argc, char **argv) {
  struct front f, stated;
  struct rest rest;
  if (argc != 4 || !start(argv[2], STATEMENTS, &f, &rest)) return 2;
  struct part witnesses = take(&rest, LOMVUZE_WITNESSES_BYTES(f.k, f.l)), none = {lomvuze_empty(), 0};
  if (!finished(&rest)) return 2;
  stated = f;
  f.a = f.b = f.c = none;
  change_total(&f);
  fold_all(&f, witnesses);
  REQUIRE(write_batch(argv[3], &f, strcmp(argv[1], "empty") == 0 ? &f : &stated));
  return failed;
}
