/*
 * Changes one number of a stored file, of statements or a batch (examples/c/README.md), that is told by its name: where it stands follows from the layout.
 *
 *   spoil FILE PART VALUE    puts VALUE there
 *   spoil FILE PART          prints the number that is there
 *
 * PART is one of
 *
 *   size S                   a number of the header: m, n, k, l, t, or a, b, c for the count of entries
 *   entry LIST I FIELD       entry I of a, b or c: row, column or value
 *   item I FIELD             item I: e, r J, x J, or number J of its root: root J
 *   new_item FIELD           the same of a batch's new item
 *   witness I J              number J of witness I of statements
 *   quotient J               coefficient J of a batch
 *   opening Q value          the value of opening Q of a batch, in the order of the file
 *   opening Q sibling S      the first number of its sibling S
 *   new_witness J            number J of a batch's new witness
 *
 *   spoil FILE cut T         leaves the openings at a batch's first T positions, and sets t
 *
 * Exit status: 0, or 2 where there is no such file or part.
 */
#include <stdlib.h>

#include "../../examples/c/batch.h"

/* The parts of a file. Those that its kind has not are empty. */
struct stored {
  struct front f;
  struct part witnesses, quotient, new_item, openings, new_witness;
};

/* The words of PART that are not read yet. */
struct words {
  char **next;
  int count;
};

static const char *word(struct words *words) { return words->count > 0 ? (words->count--, *words->next++) : ""; }

/* The next word as a number below a limit; the limit where it is none. */
static size_t index_below(struct words *words, size_t limit) {
  const char *text = word(words);
  char *end;
  unsigned long index = strtoul(text, &end, 10);
  return *text == '\0' || *end != '\0' || index >= limit ? limit : (size_t)index;
}

/* Number J of `count` numbers; NULL where there is none. */
static const uint8_t *number_of(struct words *words, const uint8_t *numbers, size_t count) {
  size_t j = index_below(words, count);
  return j < count ? numbers + j * LOMVUZE_NUMBER_BYTES : NULL;
}

/* The place of a name in a list of them that ends with NULL. */
static size_t place(const char *name, const char *const *names) {
  size_t i = 0;
  while (names[i] != NULL && strcmp(names[i], name) != 0) i++;
  return i;
}

static const uint8_t *in_item(const struct front *f, struct words *words, const uint8_t *item) {
  const char *field = word(words);
  if (strcmp(field, "e") == 0) return item + LOMVUZE_ITEM_E;
  if (strcmp(field, "r") == 0) return number_of(words, item + LOMVUZE_ITEM_R, f->m);
  if (strcmp(field, "x") == 0) return number_of(words, item + LOMVUZE_ITEM_X(f->m), f->n);
  if (strcmp(field, "root") == 0)
    return number_of(words, item + LOMVUZE_ITEM_ROOT(f->m, f->n), LOMVUZE_DIGEST_BYTES / LOMVUZE_NUMBER_BYTES);
  return NULL;
}

static const uint8_t *in_entry(const struct front *f, struct words *words) {
  static const char *const lists[] = {"a", "b", "c", NULL}, *const fields[] = {"row", "column", "value", NULL};
  const struct part parts[] = {f->a, f->b, f->c, {NULL, 0}};
  struct part list = parts[place(word(words), lists)];
  size_t i = index_below(words, list.length / LOMVUZE_ENTRIES_BYTES(1)), field = place(word(words), fields);
  if (i == list.length / LOMVUZE_ENTRIES_BYTES(1) || fields[field] == NULL) return NULL;
  return list.bytes + LOMVUZE_ENTRIES_BYTES(i) + field * LOMVUZE_NUMBER_BYTES;
}

static const uint8_t *in_opening(const struct stored *s, struct words *words) {
  size_t each = LOMVUZE_OPENING_BYTES(s->f.k), q = index_below(words, s->openings.length / each);
  const uint8_t *opening = s->openings.bytes + q * each;
  const char *field = word(words);
  if (q == s->openings.length / each) return NULL;
  if (strcmp(field, "value") == 0) return opening;
  if (strcmp(field, "sibling") != 0) return NULL;
  size_t sibling = index_below(words, LOMVUZE_DEPTH(s->f.k));
  return sibling < LOMVUZE_DEPTH(s->f.k) ? opening + LOMVUZE_NUMBER_BYTES + sibling * LOMVUZE_DIGEST_BYTES : NULL;
}

/* Where the number is that the words name; NULL where there is none. */
static const uint8_t *find(const struct stored *s, struct words *words) {
  static const char *const sizes[] = {"m", "n", "k", "l", "t", "a", "b", "c", NULL};
  const char *name = word(words);
  if (strcmp(name, "size") == 0) {
    size_t i = place(word(words), sizes);
    return sizes[i] != NULL ? file + LETTERS + i * LOMVUZE_NUMBER_BYTES : NULL;
  }
  if (strcmp(name, "entry") == 0) return in_entry(&s->f, words);
  if (strcmp(name, "item") == 0) {
    size_t i = index_below(words, s->f.l);
    return i < s->f.l ? in_item(&s->f, words, item_of(&s->f, (uint32_t)i)) : NULL;
  }
  if (strcmp(name, "new_item") == 0) return s->new_item.length != 0 ? in_item(&s->f, words, s->new_item.bytes) : NULL;
  if (strcmp(name, "witness") == 0) {
    size_t count = s->witnesses.length / LOMVUZE_WITNESS_BYTES(s->f.k), i = index_below(words, count);
    return i < count ? number_of(words, s->witnesses.bytes + LOMVUZE_WITNESSES_BYTES(s->f.k, i), s->f.k) : NULL;
  }
  if (strcmp(name, "quotient") == 0) return number_of(words, s->quotient.bytes, s->quotient.length / LOMVUZE_NUMBER_BYTES);
  if (strcmp(name, "opening") == 0) return in_opening(s, words);
  if (strcmp(name, "new_witness") == 0) return number_of(words, s->new_witness.bytes, s->new_witness.length / LOMVUZE_NUMBER_BYTES);
  return NULL;
}

static bool read_stored(const char *name, struct stored *s, size_t *length) {
  struct rest rest;
  *s = (struct stored){0};
  if (!read_file(name, file, sizeof file, length)) return false;
  bool batch = memcmp(file, BATCH, LETTERS) == 0;
  if (!start(name, batch ? BATCH : STATEMENTS, &s->f, &rest)) return false;
  if (!batch) s->witnesses = take(&rest, LOMVUZE_WITNESSES_BYTES(s->f.k, s->f.l));
  if (batch) {
    s->quotient = take(&rest, LOMVUZE_QUOTIENT_BYTES(s->f.m, s->f.l));
    s->new_item = take(&rest, LOMVUZE_ITEM_BYTES(s->f.m, s->f.n));
    s->openings = take(&rest, LOMVUZE_ALL_OPENINGS_BYTES(s->f.k, s->f.l, s->f.t));
    s->new_witness = take(&rest, LOMVUZE_WITNESS_BYTES(s->f.k));
  }
  return finished(&rest);
}

static void put(const uint8_t *place, uint32_t value) {
  for (size_t i = 0; i < LOMVUZE_NUMBER_BYTES; i++) file[place - file + (ptrdiff_t)i] = (uint8_t)(value >> (8 * i));
}

/* Takes the openings behind the first t positions out of the file, which then is shorter. */
static bool cut(const struct stored *s, struct words *words, size_t *length) {
  static char *t_size[] = {"size", "t"};
  struct words t_words = {t_size, 2};
  size_t t = index_below(words, s->f.t + 1u), kept = LOMVUZE_ALL_OPENINGS_BYTES(s->f.k, s->f.l, t);
  if (t == s->f.t + 1u || s->openings.length == 0) return false;
  memmove(file + (s->openings.bytes - file) + kept, s->new_witness.bytes, s->new_witness.length);
  *length -= s->openings.length - kept;
  put(find(s, &t_words), (uint32_t)t);
  return true;
}

static bool write_stored(const char *name, size_t length) {
  FILE *stream = fopen(name, "wb");
  return stream != NULL && fwrite(file, 1, length, stream) == length && fclose(stream) == 0;
}

int main(int argc, char **argv) {
  struct stored stored;
  size_t length;
  if (argc < 4 || !read_stored(argv[1], &stored, &length)) return 2;
  struct words words = {argv + 2, argc - 2};
  if (strcmp(argv[2], "cut") == 0) {
    word(&words);
    return cut(&stored, &words, &length) && write_stored(argv[1], length) ? 0 : 2;
  }
  const uint8_t *found = find(&stored, &words);
  if (found == NULL || words.count > 1) {
    fprintf(stderr, "spoil: %s has no such part\n", argv[1]);
    return 2;
  }
  if (words.count == 0) return printf("%" PRIu32 "\n", lomvuze_number(found)) > 0 ? 0 : 2;
  char *end;
  unsigned long value = strtoul(*words.next, &end, 10);
  if (**words.next == '\0' || *end != '\0' || value > UINT32_MAX) return 2;
  put(found, (uint32_t)value);
  return write_stored(argv[1], length) ? 0 : 2;
}
