/* Buffers between pages without access: what touches a byte outside of one ends the run. */
#define _DEFAULT_SOURCE
#include <stdio.h>
#include <stdlib.h>
#include <sys/mman.h>

#include "target.h"

enum { SLOTS = 2 * MOST_BUFFERS + 16, GUARD = 1 << 16 };

static const size_t far = (size_t)1 << 32;

static uint8_t *memory;
static size_t used;

/* Zeros, for a buffer of more than 2^32 bytes. */
static uint8_t *large;

static void *map(size_t length, int access) {
  void *start = mmap(NULL, length, access, MAP_PRIVATE | MAP_ANONYMOUS | MAP_NORESERVE, -1, 0);
  if (start == MAP_FAILED) {
    perror("memory.c: memory");
    exit(2);
  }
  return start;
}

static void reserve(void) {
  size_t stride = (size_t)LONGEST + GUARD;
  memory = map(SLOTS * stride + GUARD, PROT_NONE);
  for (size_t i = 0; i < SLOTS; i++) {
    if (mprotect(memory + GUARD + i * stride, LONGEST, PROT_READ | PROT_WRITE) != 0) {
      perror("memory.c: memory");
      exit(2);
    }
  }
  large = map(far + LONGEST, PROT_READ | PROT_WRITE);
}

void free_all(void) {
  if (memory == NULL) reserve();
  used = 0;
}

/* One of no bytes lies at the page itself. */
struct buffer place(size_t length, enum side side) {
  if (used == SLOTS || length > LONGEST) {
    fprintf(stderr, "memory.c: too many buffers, or one is too long\n");
    exit(2);
  }
  uint8_t *slot = memory + GUARD + used++ * ((size_t)LONGEST + GUARD);
  if (length == 0) return (struct buffer){side == AT_START ? slot - 1 : slot + LONGEST, 0};
  return (struct buffer){side == AT_START ? slot : slot + LONGEST - length, length};
}

struct buffer scratch(size_t length) {
  struct buffer buffer = place(length, AT_END);
  if (length > 0) memset(buffer.bytes, 0, length);
  return buffer;
}

struct buffer slice(struct buffer buffer, size_t start, size_t length) {
  REQUIRE(start <= buffer.length && length <= buffer.length - start, "a slice outside its buffer");
  return (struct buffer){buffer.bytes + start, length};
}

struct buffer far_longer(struct buffer buffer) { return (struct buffer){large, buffer.length + far}; }
