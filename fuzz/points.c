/* Points: the built-in ones, which points pass check 12, and codewords by the sums that define them. */
#include "target.h"

static uint32_t times(uint32_t a, uint32_t b) { return (uint32_t)((uint64_t)a * b % LOMVUZE_P); }

static uint32_t power(uint32_t a, uint32_t n) {
  uint32_t result = 1;
  for (; n != 0; n /= 2) {
    if (n % 2 == 1) result = times(result, a);
    a = times(a, a);
  }
  return result;
}

bool takes_points(void) { return part_of(0) == PART_POINTS; }

/* Point i is g^i, where g = 31^((p - 1) / 4k). */
void put_built_in(uint8_t *bytes, size_t length, uint32_t k) {
  memset(bytes, 0, length);
  if (!LOMVUZE_IS_K(k)) return;
  uint32_t g = power(31, (LOMVUZE_P - 1) / (4 * k)), point = 1;
  for (size_t i = 0; i < 4 * k && (i + 1) * LOMVUZE_NUMBER_BYTES <= length; i++, point = times(point, g)) {
    put_number(bytes + i * LOMVUZE_NUMBER_BYTES, point);
  }
}

bool points_pass(struct buffer points) {
  if (!below_p(points)) return false;
  for (size_t i = 0; i < points.length; i += LOMVUZE_NUMBER_BYTES) {
    uint32_t point = number_at(points.bytes + i);
    for (size_t j = 0; j < i; j += LOMVUZE_NUMBER_BYTES) {
      if (number_at(points.bytes + j) == point) return false;
    }
  }
  return true;
}

uint32_t value_at(struct buffer points, size_t position, struct buffer witness) {
  uint32_t point = number_at(points.bytes + position * LOMVUZE_NUMBER_BYTES);
  uint64_t value = 0;
  for (size_t end = witness.length; end > 0; end -= LOMVUZE_NUMBER_BYTES) {
    value = (value * point + number_at(witness.bytes + end - LOMVUZE_NUMBER_BYTES)) % LOMVUZE_P;
  }
  return (uint32_t)value;
}
