/* Drawing anew: SHA-256, with the section numbers of FIPS 180-4, and numbers as docs/FORMAT.md (Drawing) takes them from digests. */
#include "target.h"

/* 4.2.2 */
static const uint32_t constants[64] = {
    0x428a2f98, 0x71374491, 0xb5c0fbcf, 0xe9b5dba5, 0x3956c25b, 0x59f111f1, 0x923f82a4, 0xab1c5ed5, 0xd807aa98, 0x12835b01, 0x243185be,
    0x550c7dc3, 0x72be5d74, 0x80deb1fe, 0x9bdc06a7, 0xc19bf174, 0xe49b69c1, 0xefbe4786, 0x0fc19dc6, 0x240ca1cc, 0x2de92c6f, 0x4a7484aa,
    0x5cb0a9dc, 0x76f988da, 0x983e5152, 0xa831c66d, 0xb00327c8, 0xbf597fc7, 0xc6e00bf3, 0xd5a79147, 0x06ca6351, 0x14292967, 0x27b70a85,
    0x2e1b2138, 0x4d2c6dfc, 0x53380d13, 0x650a7354, 0x766a0abb, 0x81c2c92e, 0x92722c85, 0xa2bfe8a1, 0xa81a664b, 0xc24b8b70, 0xc76c51a3,
    0xd192e819, 0xd6990624, 0xf40e3585, 0x106aa070, 0x19a4c116, 0x1e376c08, 0x2748774c, 0x34b0bcb5, 0x391c0cb3, 0x4ed8aa4a, 0x5b9cca4f,
    0x682e6ff3, 0x748f82ee, 0x78a5636f, 0x84c87814, 0x8cc70208, 0x90befffa, 0xa4506ceb, 0xbef9a3f7, 0xc67178f2};

static uint32_t rotr(uint32_t x, int n) { return x >> n | x << (32 - n); }

/* 6.2.2: one block. v is a to h. */
static void compress(uint32_t value[8], const uint8_t *block) {
  uint32_t w[64], v[8];
  for (size_t t = 0; t < 16; t++, block += 4) {
    w[t] = (uint32_t)block[0] << 24 | (uint32_t)block[1] << 16 | (uint32_t)block[2] << 8 | (uint32_t)block[3];
  }
  for (size_t t = 16; t < 64; t++) {
    uint32_t x = w[t - 2], y = w[t - 15];
    w[t] = (rotr(x, 17) ^ rotr(x, 19) ^ x >> 10) + w[t - 7] + (rotr(y, 7) ^ rotr(y, 18) ^ y >> 3) + w[t - 16];
  }
  memcpy(v, value, sizeof v);
  for (size_t t = 0; t < 64; t++) {
    uint32_t a = v[0], e = v[4];
    uint32_t one = v[7] + (rotr(e, 6) ^ rotr(e, 11) ^ rotr(e, 25)) + ((e & v[5]) ^ (~e & v[6])) + constants[t] + w[t];
    uint32_t two = (rotr(a, 2) ^ rotr(a, 13) ^ rotr(a, 22)) + ((a & v[1]) ^ (a & v[2]) ^ (v[1] & v[2]));
    memmove(v + 1, v, 7 * sizeof v[0]);
    v[0] = one + two;
    v[4] += one;
  }
  for (size_t i = 0; i < 8; i++) value[i] += v[i];
}

void hash(struct message *message, uint8_t digest[LOMVUZE_DIGEST_BYTES]) {
  /* 5.3.3 */
  uint32_t value[8] = {0x6a09e667, 0xbb67ae85, 0x3c6ef372, 0xa54ff53a, 0x510e527f, 0x9b05688c, 0x1f83d9ab, 0x5be0cd19};
  /* 5.1.1: the byte 0x80, zeros, and the length in bits, highest byte first, up to the end of a block. */
  size_t length = message->length, end = (length + 1 + 8 + 63) / 64 * 64;
  memset(message->bytes + length, 0, end - length);
  message->bytes[length] = 0x80;
  for (size_t i = 0; i < 8; i++) message->bytes[end - 1 - i] = (uint8_t)((uint64_t)length * 8 >> 8 * i);

  for (size_t at = 0; at < end; at += 64) compress(value, message->bytes + at);
  for (size_t i = 0; i < LOMVUZE_DIGEST_BYTES; i++) digest[i] = (uint8_t)(value[i / 4] >> (24 - i % 4 * 8));
}

void add_bytes(struct message *message, struct buffer bytes) {
  const size_t padding = 1 + 8 + 63; /* at most */
  REQUIRE(message->length + bytes.length + padding <= LONGEST_MESSAGE, "a message that is too long");
  if (bytes.length > 0) memcpy(message->bytes + message->length, bytes.bytes, bytes.length);
  message->length += bytes.length;
}

void add_number(struct message *message, uint32_t number) {
  uint8_t bytes[LOMVUZE_NUMBER_BYTES];
  put_number(bytes, number);
  add_bytes(message, (struct buffer){bytes, sizeof bytes});
}

uint64_t first_bytes(struct message *message, size_t count) {
  uint8_t digest[LOMVUZE_DIGEST_BYTES];
  uint64_t number = 0;
  hash(message, digest);
  while (count > 0) number = number << 8 | digest[--count];
  return number;
}

void require_drawn(struct buffer numbers, struct message *message, size_t count, uint32_t limit) {
  size_t length = message->length;
  for (uint32_t j = 0; j < numbers.length / LOMVUZE_NUMBER_BYTES; j++) {
    uint32_t number = number_at(numbers.bytes + j * LOMVUZE_NUMBER_BYTES);
    REQUIRE(number < limit, "a number outside its range was drawn");
    add_number(message, j);
    REQUIRE(number == first_bytes(message, count) % limit, "another number is drawn anew");
    message->length = length;
  }
}
