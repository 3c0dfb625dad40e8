/* The list of runs, in words. */
#ifndef TRIALS_H
#define TRIALS_H

#include "obligations.h"

enum { OBLIGATIONS = 7, TRIALS = 22 };

/* An obligation: its name in the table, and what the clearing house sees to. */
struct obligation {
  const char *name, *rule;
};

/* A run: what is tried without the obligation and with it, in short and in a few lines. */
struct trial {
  int obligation;
  run *run;
  const char *without, *with;
  const char *cheat, *refusal;
};

/* Obligation i is number i - 1 of its list. */
extern const struct obligation obligations[OBLIGATIONS];
extern const struct trial trials[TRIALS];

#endif
