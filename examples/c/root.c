/* Prints the root of a witness over the built-in points as 64 hexadecimal digits, as an `item` line of a sheet has it. */
#include <inttypes.h>
#include <stdbool.h>
#include <stdio.h>
#include <string.h>

#include "lomvuze.h"

static const char help[] =
    "usage: root NUMBER... (installed as lomvuze-root)\n"
    "  NUMBER  the numbers of the witness, k of them: 2, 4, 8, 16, 32 or 64, each below p = 2013265921\n"
    "Exit status: 0 where the root is printed, 1 where lomvuze_encode refuses, 2 where an argument is no number from 0 to 4294967295, or there are none or\n"
    "over 64.\n";

/* Reads a decimal number of digits alone, and puts it into four bytes. */
static bool put(const char *text, uint8_t *bytes) {
  uint64_t value = 0;
  if (*text == '\0') return false;
  for (; *text != '\0'; text++) {
    if (*text < '0' || *text > '9') return false;
    value = 10 * value + (uint64_t)(*text - '0');
    if (value > UINT32_MAX) return false;
  }
  for (int i = 0; i < 4; i++) bytes[i] = (uint8_t)(value >> 8 * i);
  return true;
}

int main(int argc, char **argv) {
  uint8_t witness[LOMVUZE_WITNESS_BYTES(LOMVUZE_MAX_K)];
  uint8_t codeword[LOMVUZE_CODEWORD_BYTES(LOMVUZE_MAX_K)];
  uint8_t root[LOMVUZE_DIGEST_BYTES];
  if (argc == 2 && (strcmp(argv[1], "-h") == 0 || strcmp(argv[1], "--help") == 0)) return fputs(help, stdout) < 0;
  bool numbers = argc > 1 && argc - 1 <= LOMVUZE_MAX_K;
  for (int i = 1; numbers && i < argc; i++) numbers = put(argv[i], witness + (size_t)(i - 1) * LOMVUZE_NUMBER_BYTES);
  if (!numbers) {
    fputs(help, stderr);
    return 2;
  }
  uint32_t k = (uint32_t)(argc - 1);
  uint32_t answer = lomvuze_encode(k, LOMVUZE_BUILT_IN_POINTS, witness, LOMVUZE_WITNESS_BYTES(k), codeword, LOMVUZE_CODEWORD_BYTES(k),
                                   root, sizeof root);
  if (answer != LOMVUZE_ACCEPTED) {
    fprintf(stderr, "refused %" PRIu32 ": %s\n", answer, lomvuze_strerror(answer));
    return 1;
  }
  for (size_t i = 0; i < sizeof root; i++) printf("%02x", root[i]);
  printf("\n");
  return 0;
}
