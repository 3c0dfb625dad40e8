/*
 * Runs the target's call twice on one input, and checks:
 *
 *   - The call touches no byte outside its buffers. Each buffer starts behind pages without access in the first run, and ends before some in
 *     the second. AddressSanitizer does not see the loads and stores of the library, which is not compiled with it.
 *   - The verdict is 0 or one of the call's checks. It is LOMVUZE_SIZE exactly if a size or a length is not permitted. A length of 2^32 more is
 *     not, though its last 32 bits are the same. A sheet has sizes and counts too, and its lines are checked first.
 *   - The answer is the verdict, without blocks, unless it is verifying's and LOMVUZE_OPENING was reached.
 *   - It is LOMVUZE_POINTS exactly if a point repeats another or is p or more, and LOMVUZE_SIZE and LOMVUZE_ELEMENT pass.
 *   - It is LOMVUZE_FIRST_INPUT exactly if a first input that the call tests is not 1, and the checks before it pass. With another first input it
 *     is that, or the check before it that it was.
 *   - The built-in points lent by hand give what the empty buffer gives.
 *   - Input buffers are unchanged. After a refusal output buffers are too.
 *   - Both runs give the same answer. After 0 they leave the same bytes, though output buffers held others before; beyond what a sheet gives
 *     they hold those still.
 *   - What the target's comparison with other calls requires.
 */
#include <inttypes.h>
#include <stdio.h>
#include <stdlib.h>

#include "target.h"

void found(const char *what) {
  fprintf(stderr, "FOUND: %s (verdict %" PRIu32 ", %" PRIu64 " blocks)\n", what, LOMVUZE_VERDICT(last_answer), LOMVUZE_BLOCKS(last_answer));
  abort();
}

/*
 * ---- What libFuzzer is told. It keeps inputs that are accepted at new sizes, for each of the three ways to lend points, and one for each other
 * verdict: a change of an accepted input reaches further than one of an input that was refused.
 */

enum { SIZES = 7 * 6 * 8 * 3, VERDICTS = LOMVUZE_FIRST_INPUT + 1 };

__attribute__((section("__libfuzzer_extra_counters"))) static uint8_t seen[SIZES + VERDICTS];

static unsigned long verdicts[VERDICTS];

static void note(const struct sizes *s, enum which points, uint32_t verdict) {
  size_t depth = depth_of(s->k) - depth_of(LOMVUZE_MIN_K);
  verdicts[verdict]++;
  seen[verdict == LOMVUZE_ACCEPTED ? ((s->m * 6 + depth) * 8 + s->l - 1) * 3 + points : SIZES + verdict] = 1;
}

static void print_verdicts(void) {
  fprintf(stderr, "verdicts:");
  for (size_t i = 0; i < VERDICTS; i++) {
    if (verdicts[i] > 0) fprintf(stderr, " %zu: %lu", i, verdicts[i]);
  }
  fprintf(stderr, "\n");
}

/* libFuzzer's start. */
int LLVMFuzzerInitialize(int *argc, char ***argv);
int LLVMFuzzerInitialize(int *argc, char ***argv) {
  (void)argc;
  (void)argv;
  atexit(print_verdicts);
  return 0;
}

/* ---- The runs */

uint64_t last_answer;

enum { FIRST_FILL = 0xA5, SECOND_FILL = 0x5A };

const uint32_t *sizes_read(const struct call *call) { return (const uint32_t *)(const void *)call->out[output_count() - 1].bytes; }

size_t written(const struct call *call, size_t output) {
  if (!reads_sheet()) return call->out[output].length;
  const uint32_t *sizes = sizes_read(call);
  switch (target.call->outputs[output]) {
    case PART_SHEET_ENTRIES: return LOMVUZE_ENTRIES_BYTES(sizes[3 + output]);
    case PART_SHEET_ITEMS: return LOMVUZE_ITEMS_BYTES(sizes[0], sizes[1], sizes[6]);
    case PART_SHEET_WITNESSES: return LOMVUZE_WITNESSES_BYTES(sizes[2], sizes[6]);
    default: return call->out[output].length;
  }
}

static bool allowed(uint32_t verdict) {
  if (verdict == LOMVUZE_ACCEPTED) return true;
  for (const uint32_t *check = target.call->checks; *check != 0; check++) {
    if (verdict == *check) return true;
  }
  return false;
}

bool comes_before(uint32_t one, uint32_t other) {
  for (const uint32_t *check = target.call->checks; *check != 0 && *check != other; check++) {
    if (*check == one) return true;
  }
  return false;
}

/* Whether the call counts blocks, and the check at which it does was reached. */
static bool counts(uint32_t verdict) { return allowed(LOMVUZE_OPENING) && !comes_before(verdict, LOMVUZE_OPENING); }

static bool filled(struct buffer buffer, uint8_t with) {
  return buffer.length == 0 || (buffer.bytes[0] == with && memcmp(buffer.bytes, buffer.bytes + 1, buffer.length - 1) == 0);
}

static uint64_t answer_to(const struct call *call) {
  uint64_t answer = target.call->run(call);
  return fault ? fault(call, answer) : answer;
}

/* Makes the call with all buffers at one side of their memory, and output buffers filled with a byte. */
static void run(const struct input *input, enum side side, uint8_t fill, struct call *call) {
  size_t inputs = input_count(), outputs = buffer_count() - inputs;
  call->sizes = input->sizes;
  for (size_t i = 0; i < inputs; i++) {
    call->in[i] = place(input->lengths[i], side);
    if (input->lengths[i] > 0) memcpy(call->in[i].bytes, input->contents[i], input->lengths[i]);
  }
  for (size_t i = 0; i < outputs; i++) {
    call->out[i] = place(input->lengths[inputs + i], side);
    if (call->out[i].length > 0) memset(call->out[i].bytes, fill, call->out[i].length);
  }

  last_answer = answer_to(call);
  uint32_t verdict = LOMVUZE_VERDICT(last_answer);
  REQUIRE(allowed(verdict), "a verdict that is none of the call's checks");
  for (size_t i = 0; i < inputs; i++) {
    REQUIRE(input->lengths[i] == 0 || memcmp(call->in[i].bytes, input->contents[i], input->lengths[i]) == 0, "an input buffer was changed");
  }
  for (size_t i = 0; i < outputs; i++) {
    REQUIRE(verdict == LOMVUZE_ACCEPTED || filled(call->out[i], fill), "a refusal wrote");
  }
}

/* What both runs left in an output buffer, after 0. */
static void check_written(const struct call *first, const struct call *second, size_t i) {
  size_t length = written(first, i), beyond = first->out[i].length - length;
  struct buffer one = slice(first->out[i], 0, length), other = slice(second->out[i], 0, length);
  REQUIRE(length == 0 || memcmp(one.bytes, other.bytes, length) == 0, "other bytes for the same input");
  REQUIRE(filled(slice(first->out[i], length, beyond), FIRST_FILL) && filled(slice(second->out[i], length, beyond), SECOND_FILL),
          "bytes beyond what the sheet gives were changed");
}

/* Makes the call with one buffer after the other longer by 2^32 bytes. A sheet is too long then, or it breaks the line rules anyway. */
static void run_far(struct call *call, uint32_t verdict) {
  for (size_t i = 0; i < buffer_count(); i++) {
    if (kind_at(i) == NUMBERS) continue;
    uint32_t check = verdict == LOMVUZE_SHEET || part_of(i) == PART_SHEET ? LOMVUZE_SHEET : LOMVUZE_SIZE;
    struct buffer *buffer = i < input_count() ? &call->in[i] : &call->out[i - input_count()], old = *buffer;
    *buffer = far_longer(old);
    REQUIRE(answer_to(call) == check, "a length of 2^32 more is not refused by its check");
    *buffer = old;
  }
}

/* Makes the call again with an empty buffer in the place of the built-in points: the same verdict and, after 0, the same bytes. */
static void run_without_points(const struct call *call, uint32_t verdict) {
  struct call again = *call;
  again.in[0] = scratch(0);
  for (size_t i = 0; i < output_count(); i++) again.out[i] = scratch(call->out[i].length);
  REQUIRE(target.call->run(&again) == verdict, "the built-in points have another verdict than none");
  for (size_t i = 0; verdict == LOMVUZE_ACCEPTED && i < output_count(); i++) {
    struct buffer one = call->out[i], other = again.out[i];
    REQUIRE(one.length == 0 || memcmp(one.bytes, other.bytes, one.length) == 0, "the built-in points give other bytes than none");
  }
}

/* What a call that passed check 2 does with its points. */
static void check_points(const struct input *input, const struct call *call, uint32_t verdict) {
  if (!takes_points()) return;
  bool tested = verdict != LOMVUZE_ELEMENT;
  REQUIRE((verdict == LOMVUZE_POINTS) == (tested && !points_pass(call->in[0])), "check 12 is not what the points say");
  if (input->points == BUILT_IN) run_without_points(call, verdict);
}

/* Makes the call with 0 for a first input that is 1, in the text of a sheet too: it answers the bare number. */
static void run_without_one(const struct call *call, enum end end, uint32_t verdict) {
  uint8_t *one = leading_one(call, end);
  if (one == NULL) return;
  *one ^= 1;
  REQUIRE(target.call->run(call) == verdict, "check 13 is not in its place");
  *one ^= 1;
}

/* What a call says of first inputs, where no check before that one refuses. */
static void check_first_inputs(const struct call *call, uint32_t verdict) {
  if (!allowed(LOMVUZE_FIRST_INPUT) || verdict == LOMVUZE_SHEET) return;
  bool before = comes_before(verdict, LOMVUZE_FIRST_INPUT);
  REQUIRE(before || (verdict == LOMVUZE_FIRST_INPUT) == !ones_lead(call), "check 13 is not what the first inputs say");
  run_without_one(call, FIRST, before ? verdict : LOMVUZE_FIRST_INPUT);
  run_without_one(call, LAST, before ? verdict : LOMVUZE_FIRST_INPUT);
}

int LLVMFuzzerTestOneInput(const uint8_t *data, size_t size) {
  static struct input input;
  struct call first = {0}, second = {0};
  free_all();
  unpack(&input, data, size);

  run(&input, AT_START, FIRST_FILL, &first);
  uint64_t answer = last_answer;
  uint32_t verdict = LOMVUZE_VERDICT(answer);
  run(&input, AT_END, SECOND_FILL, &second);
  REQUIRE(last_answer == answer, "another answer to the same input");
  /* Backwards: the last buffer says how much a sheet gives the others. */
  for (size_t i = verdict == LOMVUZE_ACCEPTED ? output_count() : 0; i-- > 0;) check_written(&first, &second, i);
  REQUIRE(verdict == LOMVUZE_SIZE ? reads_sheet() || !fits(&input) : verdict == LOMVUZE_SHEET || fits(&input),
          "check 2 is not what sizes and lengths say");
  REQUIRE(counts(verdict) || LOMVUZE_BLOCKS(answer) == 0, "blocks though nothing is hashed");
  if (verdict != LOMVUZE_SIZE) {
    run_far(&second, verdict);
    check_points(&input, &second, verdict);
    check_first_inputs(&second, verdict);
    target.compare(&second, answer);
  }
  if (verdict == LOMVUZE_ACCEPTED && reads_sheet()) {
    const uint32_t *sizes = sizes_read(&second);
    input.sizes = (struct sizes){.m = sizes[0], .n = sizes[1], .k = sizes[2], .l = 1 + (sizes[6] - 1) % LOMVUZE_MAX_L};
  }
  note(&input.sizes, input.points, verdict);
  return 0;
}

struct buffer item_of(uint32_t k, struct buffer points, struct buffer witness) {
  struct buffer none = scratch(0), x = scratch(LOMVUZE_X_BYTES(1)), item = scratch(LOMVUZE_ITEM_BYTES(0, 1));
  put_number(x.bytes, 1);
  uint32_t answer =
      lomvuze_cast(0, 1, k, BYTES(points), BYTES(none), BYTES(none), BYTES(none), BYTES(none), BYTES(x), BYTES(witness), BYTES(item));
  REQUIRE(answer == LOMVUZE_ACCEPTED, "a witness is not cast with an empty circuit");
  return item;
}
