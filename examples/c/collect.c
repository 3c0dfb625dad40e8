/*
 * Collects challenges: folds stored statements at one challenge more than a list with a false item can pass at, (l - 1) * (m + 2) + 1, and opens the same
 * k positions, 0 to k - 1, in every fold. Where all are accepted, each item holds, or two different strings that were hashed have one digest
 * (SecondStatement, docs/AUDIT.md). Items and quotient are fixed before the clearing house picks a challenge.
 */
#include <stdlib.h>
#include <time.h>

#include "agreed.h"
#include "batch.h"
#include "chain.h"
#include "false_item.h"

static const char help[] =
    "usage: collect [--challenges N] [--false] AGREED FILE\n"
    "  AGREED          the circuit that was agreed on: a text such as examples/c/agreed.circuit\n"
    "  FILE            statements with their witnesses: such as examples/c/statements.bin\n"
    "  --challenges N  N different challenges, 1 to 1000, in place of one more than the bound (l - 1) * (m + 2)\n"
    "  --false         the registrar makes the last item of examples/c/statements.bin false, and knows the challenges before it makes the quotient\n"
    "Exit status: 0 where each item is shown to hold, 1 where it is not, 2 where a file cannot be used, 3 where FILE has another circuit than AGREED.\n";

enum { MOST_CHALLENGES = 1000 };

struct options {
  uint32_t challenges; /* 0: one more than the bound */
  bool false_item;
  const char *agreed, *file;
};

/* One run: at how many challenges a fold is tried, made and accepted, and how often a call of the clearing house refused. */
struct count {
  uint32_t tried, folded, accepted, verify_refused, decide_refused;
};

static uint32_t challenges[MOST_CHALLENGES];
static uint8_t fixed[sizeof made.quotient], positions[LOMVUZE_POSITIONS_BYTES(LOMVUZE_MAX_K)];

static bool read_options(int argc, char **argv, struct options *options) {
  *options = (struct options){0};
  int i = 1;
  for (; i < argc && argv[i][0] == '-'; i++) {
    char *end = NULL;
    if (strcmp(argv[i], "--false") == 0) {
      options->false_item = true;
    } else if (strcmp(argv[i], "--challenges") == 0 && i + 1 < argc) {
      unsigned long number = strtoul(argv[++i], &end, 10);
      if (*end != '\0' || number == 0 || number > MOST_CHALLENGES) return false;
      options->challenges = (uint32_t)number;
    } else {
      return false;
    }
  }
  if (argc - i != 2) return false;
  options->agreed = argv[i];
  options->file = argv[i + 1];
  return true;
}

/* Picks different challenges, l to p - 1, that nobody can foretell. */
static bool pick_challenges(const struct front *f, uint32_t count) {
  FILE *random = fopen("/dev/urandom", "rb");
  if (random == NULL) return refuse("/dev/urandom", strerror(errno));
  bool good = true;
  for (uint32_t picked = 0; good && picked < count;) {
    uint64_t number;
    good = fread(&number, sizeof number, 1, random) == 1;
    challenges[picked] = f->l + (uint32_t)(number % (LOMVUZE_P - f->l));
    uint32_t i = 0;
    while (challenges[i] != challenges[picked]) i++;
    if (i == picked) picked++;
  }
  fclose(random);
  return good || refuse("/dev/urandom", "it cannot be read");
}

/* One fold at a challenge, opened at positions 0 to k - 1; whether all calls of the registrar accept. Where the list is false, `f` has it as it is folded. */
static bool fold_and_open(const struct front *f, struct part witnesses, uint32_t challenge, bool false_item) {
  if (make_fold(f, witnesses, challenge) != LOMVUZE_ACCEPTED) return false;
  memcpy(made.quotient, fixed, sizeof fixed);
  if (false_item) put_new_e(f, challenge);
  for (uint32_t i = 0; i <= f->l; i++)
    if (open_witness(f, witnesses, positions, i) != LOMVUZE_ACCEPTED) return false;
  return put_in_order(f) == LOMVUZE_ACCEPTED;
}

/* Verifies and decides each fold, with items and quotient as they were handed in. Says every second or two how far it is. */
static struct count collect(const struct front *f, const struct front *registrar, struct part witnesses, uint32_t wanted, bool false_item) {
  struct count count = {0};
  time_t last = time(NULL);
  for (; count.tried < wanted; count.tried++) {
    uint32_t challenge = challenges[count.tried];
    if (time(NULL) > last + 1) {
      fprintf(stderr, "%" PRIu32 " of %" PRIu32 " challenges\n", count.tried, wanted);
      last = time(NULL);
    }
    if (!fold_and_open(registrar, witnesses, challenge, false_item)) continue;
    count.folded++;
    bool verified = LOMVUZE_VERDICT(verify_fold(f, positions, challenge)) == LOMVUZE_ACCEPTED, decided = decide_fold(f) == LOMVUZE_ACCEPTED;
    if (!verified) count.verify_refused++;
    if (!decided) count.decide_refused++;
    if (verified && decided) count.accepted++;
  }
  return count;
}

/* Says what the accepted challenges show. The exit status. */
static int conclude_all(const struct front *f, const struct count *count) {
  printf("accepted at %" PRIu32 " of %" PRIu32 " different challenges", count->accepted, count->tried);
  if (count->folded != count->tried) printf("; no fold at %" PRIu32, count->tried - count->folded);
  if (count->verify_refused != 0) printf("; verify refuses at %" PRIu32, count->verify_refused);
  if (count->decide_refused != 0) printf("; decide refuses at %" PRIu32, count->decide_refused);
  printf("\n");
  if (count->accepted <= bound(f)) {
    uint32_t missing = bound(f) + 1 - count->accepted;
    printf("not shown, with one quotient at these positions: %" PRIu32 " more %s missing, since a list with a false item can pass at up to (l - 1) * (m + 2) = %" PRIu32 " challenges\n", missing,
           missing == 1 ? "is" : "are", bound(f));
    return FOLD_REFUSED;
  }
  printf("shown: each of the items 0 to %" PRIu32 " holds, with the one witness that the values opened at these positions fix, or two different\n"
         "strings that were hashed have one SHA-256 digest. The bound is (l - 1) * (m + 2) = %" PRIu32 " challenges.\n", f->l - 1, bound(f));
  return FOLD_ACCEPTED;
}

/* The registrar makes its quotient when it knows the challenges already, for a list with a false item. The exit status where it cannot, and else 0. */
static int prepare_false(struct front *f, struct front *registrar, struct part witnesses, uint32_t wanted) {
  uint32_t coefficients = (f->l - 1) * (f->m + 1);
  if (!pick_challenges(f, wanted)) return UNUSABLE;
  uint32_t e = f->n > PAYMENT ? make_false(f, registrar) : 0;
  if (e == 0 || !are_statements(f) || make_quotient(registrar, witnesses) != LOMVUZE_ACCEPTED) {
    fprintf(stderr, "--false is for the statements of examples/c/statements.bin\n");
    return UNUSABLE;
  }
  bend_quotient(f, e, challenges, wanted < coefficients ? wanted : coefficients);
  printf("item %" PRIu32 " is false: its payment is one higher; the registrar knows the challenges before it makes the quotient\n", f->l - 1);
  return 0;
}

/* The challenges are picked when items and quotient are fixed. The exit status where there is no quotient, and else 0. */
static int prepare(const struct front *f, struct part witnesses, uint32_t wanted) {
  if (!are_statements(f) || !report("quotient", make_quotient(f, witnesses))) return conclude(false, f);
  return pick_challenges(f, wanted) ? 0 : UNUSABLE;
}

int main(int argc, char **argv) {
  struct options options;
  struct agreed agreed;
  struct front f, registrar;
  struct rest rest;
  if (!read_options(argc, argv, &options)) return usage(argc, argv, help);
  if (!read_agreed(options.agreed, &agreed) || !start(options.file, STATEMENTS, &f, &rest)) return UNUSABLE;
  struct part witnesses = take(&rest, LOMVUZE_WITNESSES_BYTES(f.k, f.l));
  if (!finished(&rest)) return UNUSABLE;
  if (!is_agreed(&agreed, &f)) return OTHER_CIRCUIT;
  f.t = f.k;
  registrar = f;
  for (uint32_t j = 0; j < f.t; j++) put(positions + LOMVUZE_POSITIONS_BYTES(j), j);
  uint32_t wanted = options.challenges != 0 ? options.challenges : bound(&f) + 1;
  int status = options.false_item ? prepare_false(&f, &registrar, witnesses, wanted) : prepare(&f, witnesses, wanted);
  if (status != 0) return status;
  memcpy(fixed, made.quotient, sizeof fixed);
  printf("positions: 0 to %" PRIu32 " in every fold\n", f.k - 1);
  struct count count = collect(&f, &registrar, witnesses, wanted, options.false_item);
  return conclude_all(&f, &count);
}
