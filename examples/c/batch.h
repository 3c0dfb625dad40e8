/*
 * What the programs on stored files share: a file part by part, what is drawn from it, and how verdicts and blocks are printed (README.md gives the
 * formats).
 */
#ifndef BATCH_H
#define BATCH_H

#include <errno.h>
#include <inttypes.h>
#include <stdbool.h>
#include <stdio.h>
#include <string.h>

#include "lomvuze.h"

/* Exit statuses. */
enum { FOLD_ACCEPTED = 0, FOLD_REFUSED = 1, UNUSABLE = 2, OTHER_CIRCUIT = 3 };

/* What a file starts with: letters, and the numbers m, n, k, l, t and the entry counts of A, B and C. */
#define STATEMENTS "lomvuze2"
#define BATCH "lomvuze3"
enum { LETTERS = 8, HEADER_NUMBERS = 8 };

/* The longest file: a batch at the greatest sizes. */
#define LONGEST                                                                                      \
  (LETTERS + HEADER_NUMBERS * LOMVUZE_NUMBER_BYTES +                                                 \
   3 * LOMVUZE_ENTRIES_BYTES(LOMVUZE_MAX_ENTRIES) +                                                  \
   LOMVUZE_ITEMS_BYTES(LOMVUZE_MAX_M, LOMVUZE_MAX_N, LOMVUZE_MAX_L) +                                \
   LOMVUZE_QUOTIENT_BYTES(LOMVUZE_MAX_M, LOMVUZE_MAX_L) +                                            \
   LOMVUZE_ITEM_BYTES(LOMVUZE_MAX_M, LOMVUZE_MAX_N) +                                                \
   LOMVUZE_ALL_OPENINGS_BYTES(LOMVUZE_MAX_K, LOMVUZE_MAX_L, LOMVUZE_MAX_T(LOMVUZE_MAX_K)) +          \
   LOMVUZE_WITNESS_BYTES(LOMVUZE_MAX_K))

/* One byte more, to notice a file that is too long. */
static uint8_t file[LONGEST + 1];

/* A part of the file. */
struct part {
  const uint8_t *bytes;
  size_t length;
};

/* What is left to read. Where it ends before a part does, or a size is not permitted, it is not complete. */
struct rest {
  const char *name;
  const uint8_t *next;
  size_t length;
  bool complete;
};

/* What both formats start with. */
struct front {
  uint32_t m, n, k, l, t;
  struct part a, b, c, items;
};

/* What is drawn: seed and challenge from items and quotient, t positions from these and the root of the new item. */
struct drawn {
  uint8_t seed[LOMVUZE_SEED_BYTES];
  uint32_t challenge;
  uint8_t positions[LOMVUZE_POSITIONS_BYTES(LOMVUZE_MAX_T(LOMVUZE_MAX_K))];
};

/* ---- The file */

/* Says why a file cannot be used. */
static inline bool refuse(const char *name, const char *why) {
  fprintf(stderr, "cannot use %s: %s\n", name, why);
  return false;
}

/* Reads up to `size` bytes of a file; whether it could be read. */
static inline bool read_file(const char *name, uint8_t *bytes, size_t size, size_t *length) {
  FILE *stream = fopen(name, "rb");
  if (stream == NULL) return refuse(name, strerror(errno));
  *length = fread(bytes, 1, size, stream);
  bool failed = ferror(stream) != 0;
  fclose(stream);
  return !failed || refuse(name, "it cannot be read");
}

/* The next part. */
static inline struct part take(struct rest *rest, size_t length) {
  struct part part = {rest->next, length};
  if (length > rest->length) {
    rest->complete = false;
    part.length = 0;
    return part;
  }
  rest->next += length;
  rest->length -= length;
  return part;
}

/*
 * Reads a file that starts with the given letters, and takes its front. A part lies in the file or is not there: sizes that are not permitted
 * give a length that no file has.
 */
static inline bool start(const char *name, const char *letters, struct front *front, struct rest *rest) {
  *rest = (struct rest){name, file, 0, true};
  if (!read_file(name, file, sizeof file, &rest->length)) return false;
  struct part first = take(rest, LETTERS);
  struct part header = take(rest, HEADER_NUMBERS * LOMVUZE_NUMBER_BYTES);
  if (!rest->complete || memcmp(first.bytes, letters, LETTERS) != 0)
    return refuse(name, strcmp(letters, BATCH) == 0 ? "it does not start as a batch does, with " BATCH
                                                    : "it does not start as statements do, with " STATEMENTS);
  uint32_t h[HEADER_NUMBERS];
  for (size_t i = 0; i < HEADER_NUMBERS; i++) h[i] = lomvuze_number(header.bytes + i * LOMVUZE_NUMBER_BYTES);
  *front = (struct front){.m = h[0], .n = h[1], .k = h[2], .l = h[3], .t = h[4]};
  front->a = take(rest, LOMVUZE_ENTRIES_BYTES(h[5]));
  front->b = take(rest, LOMVUZE_ENTRIES_BYTES(h[6]));
  front->c = take(rest, LOMVUZE_ENTRIES_BYTES(h[7]));
  front->items = take(rest, LOMVUZE_ITEMS_BYTES(front->m, front->n, front->l));
  if (!LOMVUZE_IS_L(front->l) || !LOMVUZE_IS_T(front->k, front->t)) rest->complete = false;
  return true;
}

/* Whether the parts taken are the whole file. Then all sizes are permitted. */
static inline bool finished(const struct rest *rest) {
  if (!rest->complete) return refuse(rest->name, "it is too short, or has a size that is not permitted");
  if (rest->length != 0) return refuse(rest->name, "it is too long");
  return true;
}

/* Item i of the file. */
static inline const uint8_t *item_of(const struct front *f, uint32_t i) { return f->items.bytes + LOMVUZE_ITEMS_BYTES(f->m, f->n, i); }

/* ---- What is printed */

/* Prints how a program is called: where that was asked for, to standard output. The exit status. */
static inline int usage(int argc, char **argv, const char *text) {
  bool asked = argc == 2 && (strcmp(argv[1], "-h") == 0 || strcmp(argv[1], "--help") == 0);
  fputs(text, asked ? stdout : stderr);
  return asked ? 0 : UNUSABLE;
}

/* Prints the verdict of a call; whether it is 0. */
static inline bool report(const char *call, uint32_t verdict) {
  printf("%s %" PRIu32 ": %s\n", call, verdict, lomvuze_strerror(verdict));
  return verdict == LOMVUZE_ACCEPTED;
}

/* The same for an answer of lomvuze_verify, with the blocks that it processed and the most that the sizes permit. */
static inline bool report_verify(const struct front *front, uint64_t answer) {
  uint32_t verdict = LOMVUZE_VERDICT(answer);
  printf("verify %" PRIu32 ": %s; %" PRIu64 " of at most %" PRIu64 " SHA-256 blocks\n", verdict, lomvuze_strerror(verdict),
         LOMVUZE_BLOCKS(answer), LOMVUZE_VERIFY_BLOCKS(front->k, front->l, front->t));
  return verdict == LOMVUZE_ACCEPTED;
}

/* At so many challenges, at most, folds of a list with a false item can pass: for one quotient and one set of k positions. */
static inline uint32_t bound(const struct front *f) { return (f->l - 1) * (f->m + 2); }

/* Says what one accepted fold at drawn positions shows and what not, or that nothing is shown. The exit status. */
static inline int conclude(bool accepted, const struct front *f) {
  if (!accepted) {
    printf("refused: nothing is shown about any item\n");
    return FOLD_REFUSED;
  }
  if (f->l == 1)
    printf("accepted: one fold of item 0, the only one of the file\n"
           "For l = 1 that is enough: the item holds with the witness that the opened values fix, or two different strings hashed here have one\n"
           "SHA-256 digest.\n");
  else
    printf("accepted: one fold of items 0 to %" PRIu32 ", all %" PRIu32 " of the file, at one challenge\n"
           "That does not show that each item holds: for one quotient and one set of k positions, a list with a false item can pass at up to "
           "(l - 1) * (m + 2) = %" PRIu32 "\n"
           "of the p - l = %" PRIu32 " challenges (more by a SHA-256 collision). Drawn positions differ from fold to fold; collect.c keeps to one set.\n",
           f->l - 1, f->l, bound(f), LOMVUZE_P - f->l);
  return FOLD_ACCEPTED;
}

/* ---- What no call tests: the items as they are handed in */

/* Whether an item is a fresh statement: its e is 0. Any other e has to be the result of a fold that was verified, and the file has none. */
static inline bool is_fresh(uint32_t i, const uint8_t *item) {
  uint32_t e = lomvuze_number(item + LOMVUZE_ITEM_E);
  if (e != 0) printf("item %" PRIu32 ": e = %" PRIu32 ", which is no fresh statement\n", i, e);
  return e == 0;
}

/* Draws the r that an item has to have, from its root and x; the verdict. */
static inline uint32_t draw_r_of(const struct front *f, const uint8_t *item, uint8_t r[LOMVUZE_R_BYTES(LOMVUZE_MAX_M)]) {
  return lomvuze_draw_r(f->m, f->n, item + LOMVUZE_ITEM_ROOT(f->m, f->n), LOMVUZE_DIGEST_BYTES,
                        item + LOMVUZE_ITEM_X(f->m), LOMVUZE_X_BYTES(f->n), r, LOMVUZE_R_BYTES(f->m));
}

/* Whether the r of an item is the one that is drawn. Any other was picked by somebody, and may leave a false row without weight. */
static inline bool has_drawn_r(const struct front *f, uint32_t i, const uint8_t *item) {
  uint8_t drawn[LOMVUZE_R_BYTES(LOMVUZE_MAX_M)];
  char call[32];
  snprintf(call, sizeof call, "item %" PRIu32 ", draw_r", i);
  uint32_t verdict = draw_r_of(f, item, drawn);
  if (verdict != LOMVUZE_ACCEPTED) return report(call, verdict);
  if (memcmp(item + LOMVUZE_ITEM_R, drawn, LOMVUZE_R_BYTES(f->m)) == 0) return true;
  printf("item %" PRIu32 ": r is not the one that is drawn from its root and x\n", i);
  return false;
}

/* Whether each item is a fresh statement with the r that is drawn. Says which is the first that is not. */
static inline bool are_statements(const struct front *f) {
  for (uint32_t i = 0; i < f->l; i++)
    if (!is_fresh(i, item_of(f, i)) || !has_drawn_r(f, i, item_of(f, i))) return false;
  return true;
}

#endif
