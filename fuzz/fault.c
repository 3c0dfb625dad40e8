/*
 * Faults that a call could have, for the controls of replay.sh. LOMVUZE_FAULT names the one that is made right after each call. This file is
 * compiled as the library is, without AddressSanitizer.
 */
#include <stdlib.h>

#include "target.h"

static volatile uint8_t byte;

/* The two runs of an input come first. Those with a length of 2^32 more follow. */
enum { RUNS = 2 };

static bool is(const char *name) {
  const char *chosen = getenv("LOMVUZE_FAULT");
  return chosen != NULL && strcmp(chosen, name) == 0;
}

/* The check that the call runs directly after this one. */
static uint32_t following(uint32_t check) {
  const uint32_t *next = target.call->checks;
  while (*next != check) next++;
  return next[1];
}

/* Another seed; or the last number becomes the next one in its range, or one outside. */
static void draw_otherwise(const struct sizes *s, enum part part, struct buffer drawn) {
  if (part == PART_SEED && is("draws-another-seed")) drawn.bytes[0] ^= 1;
  if (part == PART_SEED) return;
  uint8_t *last = drawn.bytes + drawn.length - LOMVUZE_NUMBER_BYTES;
  uint32_t limit = part == PART_POSITIONS ? 4 * s->k : LOMVUZE_P;
  if (is("draws-another-number")) put_number(last, (number_at(last) + 1) % limit);
  if (is("draws-too-great-a-number")) put_number(last, limit);
  if (is("draws-too-small-a-challenge")) put_number(last, s->l - 1);
}

/* What is done to the buffers. */
static void spoil(const struct call *call, uint32_t verdict, unsigned calls) {
  for (const struct buffer *in = call->in; in < call->in + MOST_INPUTS && in->bytes != NULL; in++) {
    if (is("reads-behind-input")) byte = in->bytes[in->length];
    if (is("reads-before-input")) byte = in->bytes[-1];
    if (is("writes-input") && in->length > 0) in->bytes[in->length - 1] ^= 1;
  }
  for (size_t i = 0; i < MOST_OUTPUTS && call->out[i].bytes != NULL; i++) {
    const struct buffer *out = &call->out[i];
    if (is("writes-behind-output")) out->bytes[out->length] = byte;
    if (is("writes-before-output")) out->bytes[-1] = byte;
    if (out->length == 0) continue;
    if (is("writes-at-refusal") && verdict != LOMVUZE_ACCEPTED) out->bytes[out->length - 1] ^= 1;
    if (is("accepts-and-writes") && verdict != LOMVUZE_ACCEPTED && calls <= RUNS) memset(out->bytes, 0, out->length);
    if (verdict != LOMVUZE_ACCEPTED) continue;
    size_t end = written(call, i);
    if (is("writes-beyond") && end < out->length) out->bytes[end] ^= 1;
    if (is("leaves-a-byte") && end > 0) out->bytes[end - 1] = (uint8_t)calls;
    if (is("writes-another-byte") && end > 0 && target.call->outputs[i] != PART_SHEET_SIZES) out->bytes[end - 1] ^= 1;
    draw_otherwise(&call->sizes, target.call->outputs[i], *out);
  }
}

/* Another count of blocks. */
static uint64_t recounted(const struct sizes *s, uint64_t blocks) {
  uint64_t opening = 1 + 2 * LOMVUZE_DEPTH(s->k);
  if (blocks == 0) return is("counts-what-is-not-hashed") ? opening : 0;
  if (is("counts-an-opening-more")) return blocks + opening;
  if (is("counts-a-block-less")) return blocks - 1;
  if (is("counts-all-openings")) return LOMVUZE_VERIFY_BLOCKS(s->k, s->l, s->t);
  return is("counts-no-blocks") ? 0 : blocks;
}

uint64_t fault(const struct call *call, uint64_t answer) {
  static unsigned calls;
  uint32_t verdict = LOMVUZE_VERDICT(answer);
  spoil(call, verdict, ++calls);
  if (is("cuts-lengths") && call->in[0].length > UINT32_MAX) return LOMVUZE_ACCEPTED;
  if (is("answers-none")) return UINT32_MAX;
  if (is("answers-in-turns") && calls % 2 == 0) return LOMVUZE_ACCEPTED;
  if (is("accepts")) return LOMVUZE_ACCEPTED;
  if (is("accepts-and-writes") && calls <= RUNS) return LOMVUZE_ACCEPTED;
  if (is("exchanges-checks") && calls <= RUNS) return following(verdict);
  if (is("refuses") && verdict == LOMVUZE_ACCEPTED) return LOMVUZE_ELEMENT;
  if (is("misses-first-inputs") && verdict == LOMVUZE_FIRST_INPUT) return following(verdict);
  bool after = verdict != LOMVUZE_ACCEPTED && !comes_before(verdict, LOMVUZE_FIRST_INPUT);
  if (is("refuses-first-inputs") && after) return LOMVUZE_FIRST_INPUT;
  return 64 * recounted(&call->sizes, LOMVUZE_BLOCKS(answer)) + verdict;
}
