/*
 * Arithmetic modulo p = LOMVUZE_P, which is 15 * 2^27 + 1 and a prime. Arguments are below p, and so are results.
 */
#ifndef MODP_H
#define MODP_H

#include <stdbool.h>

#include "lomvuze.h"

static inline uint32_t plus(uint32_t a, uint32_t b) { return (uint32_t)(((uint64_t)a + b) % LOMVUZE_P); }

static inline uint32_t minus(uint32_t a, uint32_t b) { return (uint32_t)(((uint64_t)a + LOMVUZE_P - b) % LOMVUZE_P); }

static inline uint32_t times(uint32_t a, uint32_t b) { return (uint32_t)((uint64_t)a * b % LOMVUZE_P); }

/* a^n, where n is any number. By squaring: a, a^2, a^4, .. are multiplied where n has a bit 1. */
static inline uint32_t power(uint32_t a, uint32_t n) {
  uint32_t result = 1;
  for (; n != 0; n /= 2) {
    if (n % 2 == 1) result = times(result, a);
    a = times(a, a);
  }
  return result;
}

/* The b with a * b = 1, by Fermat: a^(p - 1) = 1 for a that is not 0. For a = 0 it is 0. */
static inline uint32_t inverse(uint32_t a) { return power(a, LOMVUZE_P - 2); }

/* Whether there is a b with b * b = a. Euler: a^((p - 1) / 2) is 1 for a square that is not 0, and p - 1 for all that are no squares. */
static inline bool is_square(uint32_t a) { return a == 0 || power(a, (LOMVUZE_P - 1) / 2) == 1; }

/*
 * A b with b * b = a, where there is one. Tonelli and Shanks: 31 is no square, so c = 31^15 has c^(2^26) = p - 1. Before each round
 * root^2 = a * t, t^(2^n) = 1 and c^(2^n) = p - 1; after the last one n = 0, so t = 1.
 */
static inline uint32_t square_root(uint32_t a) {
  uint32_t root = power(a, 8), t = power(a, 15), c = power(31, 15);
  for (uint32_t n = 26; n > 0; n--) {
    uint32_t squared = times(c, c);
    if (power(t, UINT32_C(1) << (n - 1)) != 1) {
      root = times(root, c);
      t = times(t, squared);
    }
    c = squared;
  }
  return root;
}

#endif
