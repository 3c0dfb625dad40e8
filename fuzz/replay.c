/*
 * Runs a target once on each file that is named, without a fuzzer, and prints the file's name and the call's verdict.
 *
 *   replay [--every] FILE...
 *
 * With --every it fails where one of the call's verdicts is not given. Exit status: 0, 1 for that, 2 where a file cannot be read; the target
 * aborts where it finds something.
 */
#include <stdio.h>
#include <stdlib.h>

#include "target.h"

static bool given[64];

/* Whether the file could be read. */
static bool replay(const char *name) {
  FILE *stream = fopen(name, "rb");
  if (stream == NULL) return false;
  long size = fseek(stream, 0, SEEK_END) == 0 ? ftell(stream) : -1;
  uint8_t *data = size > 0 ? malloc((size_t)size) : NULL;
  rewind(stream);
  bool complete = data != NULL && fread(data, 1, (size_t)size, stream) == (size_t)size;
  fclose(stream);
  if (complete) {
    LLVMFuzzerTestOneInput(data, (size_t)size);
    uint32_t verdict = LOMVUZE_VERDICT(last_answer);
    printf("%s %u\n", name, (unsigned)verdict);
    given[verdict] = true;
  }
  free(data);
  return complete;
}

int main(int argc, char **argv) {
  bool every = argc > 1 && strcmp(argv[1], "--every") == 0;
  for (int i = every ? 2 : 1; i < argc; i++) {
    if (!replay(argv[i])) {
      fprintf(stderr, "replay: cannot read %s\n", argv[i]);
      return 2;
    }
  }
  bool missing = every && !given[LOMVUZE_ACCEPTED];
  for (const uint32_t *check = target.call->checks; every && *check != 0; check++) missing = missing || !given[*check];
  if (missing) fprintf(stderr, "replay: a verdict of the call is given for no file\n");
  return missing ? 1 : 0;
}
