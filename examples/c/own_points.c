/*
 * Points of one's own: the claim w0 * w1 = x1 of decide_one.c, cast and decided over the points 10, 20, .. 80. Then what is refused: the item
 * over other points, and points of which one repeats another.
 */
#include <inttypes.h>
#include <lomvuze.h>
#include <stdio.h>

static const uint8_t a[12] = {0, 0, 0, 0, 2, 0, 0, 0, 1}, b[12] = {0, 0, 0, 0, 3, 0, 0, 0, 1}, c[12] = {0, 0, 0, 0, 1, 0, 0, 0, 1};
static const uint8_t x[8] = {1, 0, 0, 0, 6}, w[8] = {2, 0, 0, 0, 3};
static uint8_t item[LOMVUZE_ITEM_BYTES(0, 2)];

static uint32_t report(const char *call, uint32_t answer) {
  printf("%s %" PRIu32 ": %s\n", call, answer, lomvuze_strerror(answer));
  return answer;
}

static uint32_t decide(const char *name, const uint8_t *points, size_t points_len) {
  return report(name, lomvuze_decide(0, 2, 2, points, points_len, a, sizeof a, b, sizeof b, c, sizeof c, item, sizeof item, w, sizeof w));
}

int main(void) {
  /* k = 2: there are 4k = 8 points, of four bytes each. Point i belongs to position i. */
  uint8_t points[LOMVUZE_POINTS_BYTES(2)] = {0};
  for (uint8_t i = 0; i < 8; i++) points[4 * i] = (uint8_t)(10 * (i + 1));
  uint32_t cast = report("cast", lomvuze_cast(0, 2, 2, points, sizeof points, a, sizeof a, b, sizeof b, c, sizeof c, LOMVUZE_EMPTY,
                                              x, sizeof x, w, sizeof w, item, sizeof item));
  uint32_t same = decide("decide", points, sizeof points);
  uint32_t other = decide("decide over the built-in points", LOMVUZE_BUILT_IN_POINTS);
  points[28] = points[0];
  uint32_t repeated = decide("decide with point 0 at position 7 too", points, sizeof points);
  return cast == LOMVUZE_ACCEPTED && same == LOMVUZE_ACCEPTED && other == LOMVUZE_ROOT && repeated == LOMVUZE_POINTS ? 0 : 1;
}
