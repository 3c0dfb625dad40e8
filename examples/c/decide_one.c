/* The claim w0 * w1 = x1: casts x = (1, 6) with the witness (2, 3) to an item, and decides it. */
#include <inttypes.h>
#include <lomvuze.h>
#include <stdio.h>

int main(void) {
  /* One row: entries (row, column, value) of A, B and C. The columns are x0, which is 1, x1, w0 and w1. */
  const uint8_t a[12] = {0, 0, 0, 0, 2, 0, 0, 0, 1};
  const uint8_t b[12] = {0, 0, 0, 0, 3, 0, 0, 0, 1};
  const uint8_t c[12] = {0, 0, 0, 0, 1, 0, 0, 0, 1};
  const uint8_t x[8] = {1, 0, 0, 0, 6};
  const uint8_t w[8] = {2, 0, 0, 0, 3};
  uint8_t item[LOMVUZE_ITEM_BYTES(0, 2)];
  /* m = 0: r is empty. */
  uint32_t answer = lomvuze_cast(0, 2, 2, LOMVUZE_BUILT_IN_POINTS, a, sizeof a, b, sizeof b, c, sizeof c, LOMVUZE_EMPTY,
                                 x, sizeof x, w, sizeof w, item, sizeof item);
  printf("cast %" PRIu32 ": %s\n", answer, lomvuze_strerror(answer));
  if (answer != LOMVUZE_ACCEPTED) return 1;
  answer = lomvuze_decide(0, 2, 2, LOMVUZE_BUILT_IN_POINTS, a, sizeof a, b, sizeof b, c, sizeof c,
                          item, sizeof item, w, sizeof w);
  printf("decide %" PRIu32 ": %s\n", answer, lomvuze_strerror(answer));
  puts(answer == LOMVUZE_ACCEPTED ? "the item holds with the witness lent" : "nothing is shown about the item");
  return answer == LOMVUZE_ACCEPTED ? 0 : 1;
}
