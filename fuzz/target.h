/*
 * Fuzz targets: each tries one call of include/lomvuze.h on inputs that a fuzzer makes. calls.h, which make/calls.sh writes, says what a call takes,
 * reads, writes and checks. The file of a call, such as verify.c, defines `target`, with what is particular to it; target.c runs the call and checks
 * what it did, input.c reads inputs, points.c has what is known of points, items.c of items and first inputs, drawn.c of what is drawn, memory.c the
 * buffers, and mutator.c changes inputs.
 *
 * THE INPUT
 *
 * A number takes four bytes, lowest first. Where the input ends, zeros follow.
 *
 *   numbers    those that the call takes, in its order
 *   points     for a call that takes points, its first buffer, a byte: 0 for an empty buffer, 1 for the built-in points lent by hand (points.c
 *              works them out), any other for points that stand in the contents. Calls without points have no such byte
 *   lengths    a number with sign for each buffer of the call, in its order: what is added to the length that the sizes give the buffer.
 *              To a list of entries the sizes give none, so that its whole length stands here, and neither to points where the byte is 0;
 *              to points where it is not 0 they give 16k. A buffer has no less than 0 bytes, and at most a page more than at the greatest
 *              sizes. A sheet and the sizes read from it have no number here
 *   contents   of the buffers that the call reads, one after the other, points first. With the byte 1 points have no bytes here; where their
 *              buffer is longer than 16k, zeros follow them. A sheet has all bytes that are left
 *
 * The length that sizes give is worked out modulo 2^32, also where they are not permitted: a size of 2^30 comes with small buffers.
 */
#ifndef TARGET_H
#define TARGET_H

#include <stdbool.h>
#include <string.h>

#include "calls.h"

/* No buffer is longer. */
enum { LONGEST = 1 << 20 };

/* A buffer as two arguments. */
#define BYTES(buffer) (buffer).bytes, (buffer).length

/* Points and circuit of a call, its first four inputs, as arguments. */
#define OVER(call) BYTES((call)->in[0]), BYTES((call)->in[1]), BYTES((call)->in[2]), BYTES((call)->in[3])

/* ---- What the file of a call defines */

struct input;

struct target {
  const struct described_call *call;
  void (*compare)(const struct call *call, uint64_t answer);    /* compares it with other calls, after it; not for LOMVUZE_SIZE */
  void (*change)(struct input *input, size_t (*below)(size_t)); /* a change of the mutator for this call alone; NULL for none */
};

extern const struct target target;

/* ---- For comparisons */

/* Ends the run, as something is found. */
#define REQUIRE(condition, what) ((condition) ? (void)0 : found(what))
void found(const char *what);

/* A buffer of zeros that ends where memory does. It is there until the comparison ends. */
struct buffer scratch(size_t length);

/* What a call that accepted a sheet wrote as its sizes: m, n, k, the counts of entries of A, B and C, the count of pairs. */
const uint32_t *sizes_read(const struct call *call);

/* How many bytes of an output buffer a call that accepts writes: all, but from a sheet as many as sizes and counts say. */
size_t written(const struct call *call, size_t output);

/* A part of a buffer. */
struct buffer slice(struct buffer buffer, size_t start, size_t length);

void put_number(uint8_t *bytes, uint32_t number);
uint32_t number_at(const uint8_t *bytes);

/* Whether all numbers of a buffer are below p. */
bool below_p(struct buffer numbers);

/* The numbers of an item of permitted sizes: how many they are, and number j: e, then r, then x. */
size_t item_count(const struct sizes *sizes);
uint8_t *item_number(const struct sizes *sizes, uint8_t *item, size_t j);

/* Whether the call tests one check before the other. */
bool comes_before(uint32_t one, uint32_t other);

/* The item, for m = 0 and n = 1, of a witness over points that pass, and a circuit without entries. */
struct buffer item_of(uint32_t k, struct buffer points, struct buffer witness);

/* The codeword's value at a position, for points that are lent: the sum of w_j * (point at the position)^j. */
uint32_t value_at(struct buffer points, size_t position, struct buffer witness);

/* ---- Drawing anew, for comparisons */

/* What is hashed. Items and quotient of the greatest sizes fit, with what stands before them and padding behind. */
enum { LONGEST_MESSAGE = 4096 };

struct message {
  uint8_t bytes[LONGEST_MESSAGE];
  size_t length;
};

void add_number(struct message *message, uint32_t number);
void add_bytes(struct message *message, struct buffer bytes);

/* Its SHA-256. What stands behind the message is overwritten. */
void hash(struct message *message, uint8_t digest[LOMVUZE_DIGEST_BYTES]);

/* So many bytes of it from the front, as a number, lowest first. */
uint64_t first_bytes(struct message *message, size_t count);

/* Requires that number j of a buffer is below the limit: as many first bytes as count of the SHA-256 of message and j, modulo the limit. */
void require_drawn(struct buffer numbers, struct message *message, size_t count, uint32_t limit);

/* ---- Inputs, for target.c, input.c and mutator.c */

/* Which points an input lends. */
enum which { NO_POINTS, BUILT_IN, LENT };

struct input {
  struct sizes sizes;
  enum which points; /* NO_POINTS where the call takes none */
  int32_t more[MOST_BUFFERS];   /* what is added to the buffers' lengths, inputs first */
  size_t lengths[MOST_BUFFERS]; /* the lengths that result */
  uint8_t contents[MOST_INPUTS][LONGEST];
};

void unpack(struct input *input, const uint8_t *data, size_t size);

/* Writes at most so many bytes, and says how many. */
size_t pack(const struct input *input, uint8_t *data, size_t most);

/* Works out the lengths. */
void cut(struct input *input);

/* The buffers of the call, inputs first. */
size_t input_count(void);
size_t output_count(void);
size_t buffer_count(void);
enum part part_of(size_t buffer);
enum kind kind_at(size_t buffer);
enum layout layout_at(size_t buffer);
bool reads_sheet(void);
bool takes_points(void);

/* Puts the built-in points for k into a buffer, as many as fit, and zeros behind them. */
void put_built_in(uint8_t *bytes, size_t length, uint32_t k);

/* Whether points pass check 12: none is p or more, none repeats another. */
bool points_pass(struct buffer points);

/* Whether the first inputs that the call tests are 1, where it passes checks 1 and 2. */
bool ones_lead(const struct call *call);

/* That of the first item or of the last, where it is 1, and else NULL. */
enum end { FIRST, LAST };
uint8_t *leading_one(const struct call *call, enum end end);

/* Where they stand in an input, and how many they are: none where the call has none, or sizes and lengths do not pass check 2. */
size_t leading_places(struct input *input, uint8_t *at[LOMVUZE_MAX_PAIRS]);

/* Whether check 2 permits a value of a number. */
bool permitted(uint32_t value, enum number number, uint32_t k);

/* Whether the call passes check 2. */
bool fits(const struct input *input);

/* ---- Memory, for target.c */

/* Takes back all buffers. */
void free_all(void);

/* A buffer at one side of memory with access. */
enum side { AT_START, AT_END };
struct buffer place(size_t length, enum side side);

/* Zeros, 2^32 bytes longer than a buffer. */
struct buffer far_longer(struct buffer buffer);

/* ---- For replay.c and fault.c */

int LLVMFuzzerTestOneInput(const uint8_t *data, size_t size);
extern uint64_t last_answer;

/* Spoils what a call has just done and gives another answer for it. Linked by the controls of replay.sh alone. */
uint64_t fault(const struct call *call, uint64_t answer) __attribute__((weak));

#endif
