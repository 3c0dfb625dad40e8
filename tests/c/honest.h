/*
 * Inputs for any call of the description (calls.h, which make/calls.sh writes), for calls.c: buffers between guards, of the lengths that sizes give.
 *
 * HONEST inputs are zeros, but for first inputs, which are 1, roots and openings, which are those of a witness of zeros, and a sheet, which has a text;
 * points and lists of entries are empty. A call that wants more refuses them by a check behind LOMVUZE_SIZE. SPOILT inputs have all bits set.
 */
#ifndef HONEST_H
#define HONEST_H

#include <string.h>

#include "calls.h"
#include "require.h"

enum contents { HONEST, SPOILT };

/* No buffer is longer. A buffer starts aligned, as numbers have to be that are passed without a length. */
enum { LONGEST = 1 << 20, GUARD = 64, FILL = 0xA5 };

/* The buffers of a call, inputs first, as they are and as they were before it, and their lengths without the guards. */
static struct {
  _Alignas(64) uint8_t bytes[MOST_BUFFERS][GUARD + LONGEST + GUARD];
  uint8_t before[MOST_BUFFERS][GUARD + LONGEST + GUARD];
  size_t lengths[MOST_BUFFERS];
} room;

/* The call that is made next. */
static const struct described_call *described;
static struct call call;

static inline size_t buffer_count(void) { return described->input_count + described->output_count; }

static inline enum part part_at(size_t i) {
  return i < described->input_count ? described->inputs[i] : described->outputs[i - described->input_count];
}

static inline struct buffer *buffer_at(size_t i) {
  return i < described->input_count ? &call.in[i] : &call.out[i - described->input_count];
}

static inline enum kind kind_at(size_t i) { return described_parts[part_at(i)].kind; }

/* ---- Contents */

static const char honest_sheet[] =
    "size\t0\t1\t2\nitem\t0\t1\t0000000000000000000000000000000000000000000000000000000000000000\nwit\t0\t0\nend\t1\n";

/* The root of a witness of zeros, and its opening at position 0, where k is permitted. */
static inline void put_root(const struct sizes *s, uint8_t *bytes) {
  static const uint8_t w[LOMVUZE_WITNESS_BYTES(LOMVUZE_MAX_K)];
  uint8_t code[LOMVUZE_CODEWORD_BYTES(LOMVUZE_MAX_K)];
  if (!LOMVUZE_IS_K(s->k)) return;
  REQUIRE(lomvuze_encode(s->k, LOMVUZE_BUILT_IN_POINTS, w, LOMVUZE_WITNESS_BYTES(s->k), code, LOMVUZE_CODEWORD_BYTES(s->k), bytes,
                         LOMVUZE_DIGEST_BYTES) == LOMVUZE_ACCEPTED);
}

static inline void put_opening(const struct sizes *s, uint8_t *bytes) {
  static const uint8_t w[LOMVUZE_WITNESS_BYTES(LOMVUZE_MAX_K)], position[LOMVUZE_POSITIONS_BYTES(1)];
  if (!LOMVUZE_IS_K(s->k)) return;
  REQUIRE(lomvuze_open(s->k, 1, LOMVUZE_BUILT_IN_POINTS, w, LOMVUZE_WITNESS_BYTES(s->k), position, sizeof position, bytes,
                       LOMVUZE_OPENING_BYTES(s->k)) == LOMVUZE_ACCEPTED);
}

/* One record, by its fields' places in the description. */
static inline size_t put_record(const struct sizes *s, enum layout layout, uint8_t *bytes) {
  switch (layout) {
    case LAYOUT_ITEM:
      bytes[item_x(s)] = 1;
      put_root(s, bytes + item_root(s));
      return item_length(s);
    case LAYOUT_OPENING: put_opening(s, bytes); return opening_length(s);
    case LAYOUT_NONE: break;
  }
  return 0;
}

static inline void put_honest(const struct sizes *s, enum part part, struct buffer buffer) {
  memset(buffer.bytes, 0, buffer.length);
  if (part == PART_X && buffer.length > 0) buffer.bytes[0] = 1;
  if (part == PART_SHEET) memcpy(buffer.bytes, honest_sheet, buffer.length);
  if (described_parts[part].layout == LAYOUT_NONE || buffer.length == 0) return;
  size_t each = put_record(s, described_parts[part].layout, buffer.bytes);
  for (size_t at = each; at + each <= buffer.length; at += each) memcpy(buffer.bytes + at, buffer.bytes, each);
}

/* The length of an honest buffer. */
static inline size_t honest_length(enum part part, const struct sizes *s) {
  switch (described_parts[part].kind) {
    case EXACT:
    case NUMBERS: return length_of(part, s);
    case UP_TO: return part == PART_SHEET ? sizeof honest_sheet - 1 : 0;
    case OR_EMPTY: break;
  }
  return 0;
}

/* ---- The call */

/* Makes the buffers of a call. Says whether they have room, as for some sizes that are not permitted they have not. */
static inline bool prepare(const struct described_call *which, const struct sizes *s, enum contents contents) {
  described = which;
  call.sizes = *s;
  for (size_t i = 0; i < buffer_count(); i++) {
    const size_t length = honest_length(part_at(i), s);
    struct buffer *buffer = buffer_at(i);
    if (length > LONGEST) return false;
    buffer->bytes = room.bytes[i] + GUARD;
    buffer->length = room.lengths[i] = length;
    memset(room.bytes[i], FILL, GUARD + length + GUARD);
    if (i < described->input_count && contents == HONEST) put_honest(s, part_at(i), *buffer);
    if (i < described->input_count && contents == SPOILT) memset(buffer->bytes, 0xff, length);
    memcpy(room.before[i], room.bytes[i], GUARD + length + GUARD);
  }
  return true;
}

/* Whether nothing but outputs was written, and after a refusal nothing at all. The outputs are put back. */
static inline bool only_outputs_written(uint32_t verdict) {
  bool unchanged = true;
  for (size_t i = 0; i < buffer_count(); i++) {
    const size_t length = room.lengths[i];
    if (i >= described->input_count && verdict == LOMVUZE_ACCEPTED) memcpy(room.bytes[i] + GUARD, room.before[i] + GUARD, length);
    unchanged = unchanged && memcmp(room.bytes[i], room.before[i], GUARD + length + GUARD) == 0;
  }
  return unchanged;
}

#endif
