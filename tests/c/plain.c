/* What the header has beside the calls: pointers of empty buffers, which calls.c passes to each call, the texts of verdicts, and the version. */
#include <string.h>

#include "lomvuze.h"
#include "require.h"

int main(void) {
  uint8_t byte = 0;
  REQUIRE(lomvuze_in(&byte, 1) == &byte && lomvuze_out(&byte, 1) == &byte);
  REQUIRE(lomvuze_in(NULL, 0) != NULL && lomvuze_out(NULL, 0) != NULL);
  REQUIRE(*lomvuze_empty() == 0);

  REQUIRE(strcmp(lomvuze_strerror(LOMVUZE_ACCEPTED), "accepted") == 0);
  REQUIRE(strcmp(lomvuze_strerror(LOMVUZE_CLAIM), "an item does not hold") == 0);
  REQUIRE(strcmp(lomvuze_strerror(LOMVUZE_POINTS), "a point repeats another, or is p or more") == 0);
  REQUIRE(strcmp(lomvuze_strerror(LOMVUZE_FIRST_INPUT), "an item's first input is not 1") == 0);
  for (uint32_t i = 0; i <= LOMVUZE_FIRST_INPUT; i++)
    for (uint32_t j = 0; j < 20; j++) REQUIRE((i == j) == (strcmp(lomvuze_strerror(i), lomvuze_strerror(j)) == 0));
  for (uint32_t i = LOMVUZE_FIRST_INPUT + 1; i != 0; i *= 2) REQUIRE(strcmp(lomvuze_strerror(i), "unknown answer") == 0);

  char version[32];
  snprintf(version, sizeof version, "%d.%d.%d", LOMVUZE_VERSION_MAJOR, LOMVUZE_VERSION_MINOR, LOMVUZE_VERSION_PATCH);
  REQUIRE(strcmp(version, LOMVUZE_VERSION) == 0 && strcmp(version, lomvuze_version()) == 0);
  if (!failed) printf("pointers, texts and version %s as expected\n", lomvuze_version());
  return failed;
}
