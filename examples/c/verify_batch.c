/*
 * Verifies and decides a stored batch: a fold of l items, with its openings and the new witness (README.md gives the formats). Neither challenge nor
 * positions are in it: they are drawn here, from the items, the quotient and the new item that are verified. The circuit in it is compared with the one
 * that was agreed on, and decided is with the agreed one. Where nothing can be drawn, or fewer than k different positions, nothing is verified.
 */
#include "agreed.h"
#include "batch.h"
#include "draw.h"

static const char help[] =
    "usage: verify_batch AGREED FILE\n"
    "  AGREED  the circuit that was agreed on: a text such as examples/c/agreed.circuit\n"
    "  FILE    a batch, as a registrar hands it in: such as examples/c/batch.bin\n"
    "Exit status: 0 where the fold is accepted, 1 where it is refused, 2 where a file cannot be used, 3 where FILE has another circuit than AGREED.\n";

int main(int argc, char **argv) {
  struct agreed agreed;
  struct front f;
  struct rest rest;
  struct drawn drawn;
  if (argc != 3) return usage(argc, argv, help);
  if (!read_agreed(argv[1], &agreed) || !start(argv[2], BATCH, &f, &rest)) return UNUSABLE;
  struct part quotient = take(&rest, LOMVUZE_QUOTIENT_BYTES(f.m, f.l));
  struct part item = take(&rest, LOMVUZE_ITEM_BYTES(f.m, f.n));
  struct part openings = take(&rest, LOMVUZE_ALL_OPENINGS_BYTES(f.k, f.l, f.t));
  struct part witness = take(&rest, LOMVUZE_WITNESS_BYTES(f.k));
  if (!finished(&rest)) return UNUSABLE;
  if (!is_agreed(&agreed, &f)) return OTHER_CIRCUIT;

  bool statements = are_statements(&f);
  if (!draw_challenge(&f, quotient.bytes, &drawn) || !draw_positions(&f, item.bytes, &drawn)) return conclude(false, &f);
  bool verified = report_verify(&f, lomvuze_verify(f.m, f.n, f.k, f.l, f.t, drawn.challenge,
                                                   f.items.bytes, f.items.length,
                                                   drawn.positions, LOMVUZE_POSITIONS_BYTES(f.t),
                                                   quotient.bytes, quotient.length,
                                                   item.bytes, item.length,
                                                   openings.bytes, openings.length));
  bool decided = report("decide", lomvuze_decide(f.m, f.n, f.k,
                                                 LOMVUZE_BUILT_IN_POINTS,
                                                 agreed.a.bytes, agreed.a.length,
                                                 agreed.b.bytes, agreed.b.length,
                                                 agreed.c.bytes, agreed.c.length,
                                                 item.bytes, item.length,
                                                 witness.bytes, witness.length));
  return conclude(statements && verified && decided, &f);
}
