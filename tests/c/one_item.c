/*
 * Writes a batch of one item to a file, as examples/c/verify_batch.c reads it. Both verdicts are 0; what differs is what no call tests.
 *
 *   one_item drawn FILE      e is 0, and r is drawn from root and x
 *   one_item other_r FILE    r is another number
 *   one_item other_e FILE    r is drawn, and e is r - 1: the circuit has an entry with which the item holds
 */
#include <string.h>

#include "lomvuze.h"
#include "require.h"

/* The fold of one item is that item, at every challenge. */
enum { M = 1, N = 1, K = 2, L = 1, T = 8 };

static const uint8_t witness[LOMVUZE_WITNESS_BYTES(K)] = {2, 0, 0, 0, 3}, one[4] = {1}, entry[LOMVUZE_ENTRIES_BYTES(1)] = {[8] = 1};
static uint8_t item[LOMVUZE_ITEM_BYTES(M, N)], positions[LOMVUZE_POSITIONS_BYTES(T)], openings[LOMVUZE_ALL_OPENINGS_BYTES(K, L, T)];

static void put(uint8_t *bytes, uint32_t number) {
  for (int i = 0; i < 4; i++) bytes[i] = number >> 8 * i & 0xff;
}

/* e, r, x = 1 and the root of the witness. */
static void make_item(bool other_r, bool other_e) {
  uint8_t codeword[LOMVUZE_CODEWORD_BYTES(K)], *r = item + LOMVUZE_ITEM_R, *root = item + LOMVUZE_ITEM_ROOT(M, N);
  REQUIRE(lomvuze_encode(K, LOMVUZE_BUILT_IN_POINTS, witness, sizeof witness, codeword, sizeof codeword, root, LOMVUZE_DIGEST_BYTES) == 0);
  REQUIRE(lomvuze_draw_r(M, N, root, LOMVUZE_DIGEST_BYTES, one, sizeof one, r, LOMVUZE_R_BYTES(M)) == 0);
  memcpy(item + LOMVUZE_ITEM_X(M), one, sizeof one);
  if (other_r) put(r, lomvuze_number(r) / 2);
  if (other_e) put(item + LOMVUZE_ITEM_E, lomvuze_number(r) - 1); /* row 0 is 0 * 0 = 1, and has the weight 1 - r */
}

/* The openings of the item and of the new one, which is the same, at the positions that are drawn. */
static void make_openings(void) {
  uint8_t seed[LOMVUZE_SEED_BYTES], challenge[LOMVUZE_CHALLENGE_BYTES], opened[sizeof openings];
  const size_t each = LOMVUZE_OPENINGS_BYTES(K, T);
  REQUIRE(lomvuze_draw_challenge(M, N, K, L, item, sizeof item, LOMVUZE_EMPTY, seed, sizeof seed, challenge, sizeof challenge) == 0);
  REQUIRE(lomvuze_draw_positions(K, L, T, lomvuze_number(challenge), seed, sizeof seed, item + LOMVUZE_ITEM_ROOT(M, N), LOMVUZE_DIGEST_BYTES,
                                 positions, sizeof positions) == 0);
  REQUIRE(lomvuze_open(K, T, LOMVUZE_BUILT_IN_POINTS, witness, sizeof witness, positions, sizeof positions, opened, each) == 0);
  memcpy(opened + each, opened, each);
  REQUIRE(lomvuze_interleave(K, L, T, opened, sizeof opened, openings, sizeof openings) == 0);
}

int main(int argc, char **argv) {
  const bool other_r = argc == 3 && strcmp(argv[1], "other_r") == 0, other_e = argc == 3 && strcmp(argv[1], "other_e") == 0;
  const uint8_t sizes[] = {M, 0, 0, 0, N, 0, 0, 0, K, 0, 0, 0, L, 0, 0, 0, T, 0, 0, 0, 0, 0, 0, 0, 0, 0, 0, 0, other_e, 0, 0, 0};
  FILE *file = argc == 3 ? fopen(argv[2], "wb") : NULL;
  if (file == NULL) return 2;
  make_item(other_r, other_e);
  make_openings();
  fwrite("lomvuze3", 1, 8, file);
  fwrite(sizes, 1, sizeof sizes, file);
  fwrite(entry, 1, other_e ? sizeof entry : 0, file);
  fwrite(item, 1, sizeof item, file); /* the quotient is empty */
  fwrite(item, 1, sizeof item, file);
  fwrite(openings, 1, sizeof openings, file);
  fwrite(witness, 1, sizeof witness, file);
  REQUIRE(fclose(file) == 0);
  return failed;
}
