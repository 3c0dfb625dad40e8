/*
 * The circuit that was agreed on, with its sizes m, n and k, from a file of the clearing house: the lines `size`, `a`, `b` and `c` of a sheet
 * (docs/SHEETS.md). What somebody hands in names a circuit too; a program that decides with that one lets whoever wrote it say what is true.
 */
#ifndef AGREED_H
#define AGREED_H

#include "batch.h"

struct agreed {
  uint32_t m, n, k;
  struct part a, b, c;
};

/* A line has a keyword, three numbers of up to ten digits with a tab before each, and byte 10. */
enum { LONGEST_LINE = 4 + 3 * 11 + 1, LONGEST_TEXT = LONGEST_LINE * (1 + 3 * LOMVUZE_MAX_ENTRIES) };

/* Entries as the calls read them. */
static uint8_t agreed_entries[3][LOMVUZE_ENTRIES_BYTES(LOMVUZE_MAX_ENTRIES)];

/* Reads a tab and a number; whether they are there. */
static inline bool read_number(const char **text, uint32_t *number) {
  const char *at = *text + 1;
  uint64_t value = 0;
  if (**text != '\t' || *at < '0' || *at > '9') return false;
  for (; *at >= '0' && *at <= '9' && value <= UINT32_MAX; at++) value = 10 * value + (uint64_t)(*at - '0');
  *number = (uint32_t)value;
  *text = at;
  return value <= UINT32_MAX;
}

/* Reads a line with this keyword; whether it is one. The last line may lack byte 10. */
static inline bool read_line(const char **text, const char *keyword, uint32_t numbers[3]) {
  const char *at = *text + strlen(keyword);
  if (strncmp(*text, keyword, strlen(keyword)) != 0) return false;
  for (int i = 0; i < 3; i++)
    if (!read_number(&at, &numbers[i])) return false;
  if (*at != '\n' && *at != '\0') return false;
  *text = *at == '\n' ? at + 1 : at;
  return true;
}

/* Reads the lines with this keyword as entries, as many as there may be. */
static inline struct part read_entries(const char **text, const char *keyword, uint8_t *bytes) {
  uint32_t numbers[3];
  size_t count = 0;
  while (count < LOMVUZE_MAX_ENTRIES && read_line(text, keyword, numbers)) {
    for (size_t i = 0; i < LOMVUZE_ENTRIES_BYTES(1); i++)
      bytes[LOMVUZE_ENTRIES_BYTES(count) + i] = (uint8_t)(numbers[i / LOMVUZE_NUMBER_BYTES] >> (8 * (i % LOMVUZE_NUMBER_BYTES)));
    count++;
  }
  return (struct part){bytes, LOMVUZE_ENTRIES_BYTES(count)};
}

/* Reads the agreed circuit, and says which line is not as it should be. Rows, columns and their order are for lomvuze_decide to test. */
static inline bool read_agreed(const char *name, struct agreed *agreed) {
  static char text[LONGEST_TEXT + 2];
  const char *at = text;
  uint32_t sizes[3];
  size_t length;
  if (!read_file(name, (uint8_t *)text, sizeof text - 1, &length)) return false;
  text[length] = '\0';
  if (!read_line(&at, "size", sizes)) return refuse(name, "it is no circuit: its first line is not `size`, m, n and k with tabs between them");
  if (!LOMVUZE_IS_M(sizes[0]) || !LOMVUZE_IS_N(sizes[1]) || !LOMVUZE_IS_K(sizes[2])) return refuse(name, "a size is not permitted");
  *agreed = (struct agreed){.m = sizes[0], .n = sizes[1], .k = sizes[2]};
  agreed->a = read_entries(&at, "a", agreed_entries[0]);
  agreed->b = read_entries(&at, "b", agreed_entries[1]);
  agreed->c = read_entries(&at, "c", agreed_entries[2]);
  if (at == text + length) return true;
  size_t line = 1;
  for (const char *before = text; before < at; before++) line += *before == '\n';
  fprintf(stderr, "cannot use %s: line %zu is not one of up to %d lines `a`, then `b`, then `c`, each with row, column and value\n", name, line,
          LOMVUZE_MAX_ENTRIES);
  return false;
}

/* ---- What a file says, beside it */

static inline bool same_size(const char *size, uint32_t in_file, uint32_t agreed) {
  if (in_file != agreed) printf("circuit: %s is %" PRIu32 ", and %" PRIu32 " was agreed on\n", size, in_file, agreed);
  return in_file == agreed;
}

static inline void print_entry(const uint8_t *entry) {
  printf("row %" PRIu32 ", column %" PRIu32 ", value %" PRIu32, lomvuze_number(entry), lomvuze_number(entry + LOMVUZE_NUMBER_BYTES),
         lomvuze_number(entry + 2 * LOMVUZE_NUMBER_BYTES));
}

static inline bool same_entries(const char *list, struct part in_file, struct part agreed) {
  const size_t entry = LOMVUZE_ENTRIES_BYTES(1);
  if (in_file.length != agreed.length) {
    printf("circuit: %s has %zu entries, and %zu were agreed on\n", list, in_file.length / entry, agreed.length / entry);
    return false;
  }
  for (size_t at = 0; at < agreed.length; at += entry) {
    if (memcmp(in_file.bytes + at, agreed.bytes + at, entry) == 0) continue;
    printf("circuit: entry %zu of %s is ", at / entry, list);
    print_entry(in_file.bytes + at);
    printf(", and ");
    print_entry(agreed.bytes + at);
    printf(" was agreed on\n");
    return false;
  }
  return true;
}

/* Whether a file has the sizes and the circuit that were agreed on; says what differs. From then on the calls get the agreed circuit. */
static inline bool is_agreed(const struct agreed *agreed, struct front *f) {
  bool m = same_size("m", f->m, agreed->m), n = same_size("n", f->n, agreed->n), k = same_size("k", f->k, agreed->k);
  bool a = same_entries("A", f->a, agreed->a), b = same_entries("B", f->b, agreed->b), c = same_entries("C", f->c, agreed->c);
  f->a = agreed->a;
  f->b = agreed->b;
  f->c = agreed->c;
  bool same = m && n && k && a && b && c;
  if (same)
    printf("circuit: the one that was agreed on; m = %" PRIu32 ", n = %" PRIu32 ", k = %" PRIu32 "; %zu, %zu and %zu entries\n", f->m, f->n, f->k,
           f->a.length / LOMVUZE_ENTRIES_BYTES(1), f->b.length / LOMVUZE_ENTRIES_BYTES(1), f->c.length / LOMVUZE_ENTRIES_BYTES(1));
  else
    printf("refused: another circuit than was agreed on; nothing is verified\n");
  return same;
}

#endif
