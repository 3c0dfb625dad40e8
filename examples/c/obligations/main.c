/*
 * What goes wrong where a clearing house does not see to its obligations (README.md).
 *
 *   obligations      one line for each run
 *   obligations N    the runs of obligation N, with more words
 *
 * Exit status: 0 where every count is what it must be, 1 where one is not, 2 for other arguments.
 */
#include <inttypes.h>
#include <stdio.h>
#include <string.h>

#include "trials.h"

static const char *const calls[CALLS] = {"cast", "fold", "verify", "decide"};

enum { COLUMNS = 6, LONGEST = 160 };

static const char *const heads[COLUMNS] = {"obligation", "without it", "accepted", "with it", "accepted", "refused by"};

/* The characters of a text in UTF-8. */
static int width(const char *text) {
  int count = 0;
  for (; *text != '\0'; text++)
    if (((unsigned char)*text & 0xC0) != 0x80) count++;
  return count;
}

static void print_row(const char *const cells[COLUMNS], const int widths[COLUMNS]) {
  for (int i = 0; i < COLUMNS; i++) printf("| %s%*s ", cells[i], widths[i] - width(cells[i]), "");
  printf("|\n");
}

/* The calls that refused, each with its verdict and, where asked for, how often. */
static void write_refusals(const struct tally *tally, bool counts, char text[LONGEST]) {
  size_t length = 0;
  text[0] = '\0';
  for (size_t c = 0; c < CALLS; c++)
    for (size_t verdict = 0; verdict <= LAST_VERDICT; verdict++) {
      uint32_t times = tally->refused[c][verdict];
      if (times == 0) continue;
      const char *comma = length == 0 ? "" : ", ";
      int more = counts ? snprintf(text + length, LONGEST - length, "%s%s %zu at %" PRIu32, comma, calls[c], verdict, times)
                        : snprintf(text + length, LONGEST - length, "%s%s %zu", comma, calls[c], verdict);
      length += (size_t)more;
    }
}

/* Runs one; whether both counts are what they must be. Where all challenges must be accepted, casting and folding must not have refused either. */
static bool run_one(const struct trial *trial, struct tally *without, struct tally *with) {
  char refusals[LONGEST];
  *without = (struct tally){.challenges = CHALLENGES, .expected = CHALLENGES};
  *with = (struct tally){.challenges = CHALLENGES, .expected = 0};
  trial->run(without, with);
  write_refusals(without, false, refusals);
  if (without->expected == without->challenges && refusals[0] != '\0') return false;
  return without->accepted == without->expected && with->accepted == with->expected;
}

static bool print_table(void) {
  static char texts[TRIALS][3][LONGEST];
  const char *rows[TRIALS][COLUMNS];
  int widths[COLUMNS];
  bool good = true;
  for (int j = 0; j < COLUMNS; j++) widths[j] = width(heads[j]);
  for (int i = 0; i < TRIALS; i++) {
    const struct trial *trial = &trials[i];
    struct tally without, with;
    good = run_one(trial, &without, &with) && good;
    snprintf(texts[i][0], LONGEST, "%" PRIu32, without.accepted);
    snprintf(texts[i][1], LONGEST, "%" PRIu32, with.accepted);
    write_refusals(&with, false, texts[i][2]);
    const char *cells[COLUMNS] = {obligations[trial->obligation - 1].name, trial->without, texts[i][0], trial->with, texts[i][1], texts[i][2]};
    memcpy(rows[i], cells, sizeof cells);
    for (int j = 0; j < COLUMNS; j++)
      if (width(cells[j]) > widths[j]) widths[j] = width(cells[j]);
  }
  print_row(heads, widths);
  for (int j = 0; j < COLUMNS; j++) printf("|---");
  printf("|\n");
  for (int i = 0; i < TRIALS; i++) print_row(rows[i], widths);
  return good;
}

static void print_tally(const struct tally *tally) {
  char refusals[LONGEST];
  write_refusals(tally, true, refusals);
  printf("Accepted at %" PRIu32 " of %" PRIu32 " challenges.", tally->accepted, tally->challenges);
  if (refusals[0] != '\0') printf(" Refusals: %s.", refusals);
  printf("\n");
}

static bool print_words(int obligation) {
  bool good = true;
  printf("Obligation %d. %s\n", obligation, obligations[obligation - 1].rule);
  for (int i = 0; i < TRIALS; i++) {
    const struct trial *trial = &trials[i];
    if (trial->obligation != obligation) continue;
    struct tally without, with;
    good = run_one(trial, &without, &with) && good;
    printf("\nWithout it: %s.\n%s\n", trial->without, trial->cheat);
    print_tally(&without);
    printf("\nWith it: %s.\n%s\n", trial->with, trial->refusal);
    print_tally(&with);
  }
  return good;
}

int main(int argc, char **argv) {
  bool good;
  if (argc == 1) {
    good = print_table();
  } else if (argc == 2 && strlen(argv[1]) == 1 && argv[1][0] >= '1' && argv[1][0] <= '0' + OBLIGATIONS) {
    good = print_words(argv[1][0] - '0');
  } else {
    bool asked = argc == 2 && (strcmp(argv[1], "-h") == 0 || strcmp(argv[1], "--help") == 0);
    fprintf(asked ? stdout : stderr, "usage: obligations [N]\n  N  1 to %d: the runs of that obligation, with more words; without it, one line for each run\n", OBLIGATIONS);
    return asked ? 0 : 2;
  }
  if (!good) fprintf(stderr, "a count is not what it must be\n");
  return good ? 0 : 1;
}
