/* What must hold: a condition that does not is printed, and the program fails. */
#ifndef REQUIRE_H
#define REQUIRE_H

#include <stdbool.h>
#include <stdio.h>

static bool failed;

static void require(const char *what, bool holds) {
  if (holds) return;
  printf("FAILED: %s\n", what);
  failed = true;
}
#define REQUIRE(condition) require(#condition, condition)

#endif
