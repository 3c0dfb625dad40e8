/* The input: its numbers, lengths and contents, and whether the call that it stands for passes check 2. */
#include "target.h"

uint32_t number_at(const uint8_t *bytes) {
  return (uint32_t)bytes[0] | (uint32_t)bytes[1] << 8 | (uint32_t)bytes[2] << 16 | (uint32_t)bytes[3] << 24;
}

void put_number(uint8_t *bytes, uint32_t number) {
  for (int i = 0; i < 4; i++) bytes[i] = (uint8_t)(number >> 8 * i);
}

bool below_p(struct buffer numbers) {
  for (size_t i = 0; i < numbers.length; i += LOMVUZE_NUMBER_BYTES) {
    if (number_at(numbers.bytes + i) >= LOMVUZE_P) return false;
  }
  return true;
}

size_t input_count(void) { return target.call->input_count; }

size_t output_count(void) { return target.call->output_count; }

size_t buffer_count(void) { return input_count() + output_count(); }

enum part part_of(size_t buffer) {
  return buffer < input_count() ? target.call->inputs[buffer] : target.call->outputs[buffer - input_count()];
}

enum kind kind_at(size_t buffer) { return described_parts[part_of(buffer)].kind; }

enum layout layout_at(size_t buffer) { return described_parts[part_of(buffer)].layout; }

bool reads_sheet(void) { return part_of(0) == PART_SHEET; }

/* Whether the input has a number for the buffer's length. */
static bool has_number(size_t buffer) { return part_of(buffer) != PART_SHEET && kind_at(buffer) != NUMBERS; }

/* The longest buffer that is tried: a page more than one at the greatest sizes. */
static int64_t longest(size_t buffer) {
  const struct sizes greatest = {.m = LOMVUZE_MAX_M, .n = LOMVUZE_MAX_N, .k = LOMVUZE_MAX_K, .l = LOMVUZE_MAX_L, .t = LOMVUZE_MAX_T(LOMVUZE_MAX_K)};
  return 4096 + (int64_t)described_parts[part_of(buffer)].most * length_of(part_of(buffer), &greatest);
}

void cut(struct input *input) {
  for (size_t i = 0; i < buffer_count(); i++) {
    bool none = kind_at(i) == UP_TO || (part_of(i) == PART_POINTS && input->points == NO_POINTS);
    int64_t length = (none ? 0 : (int64_t)length_of(part_of(i), &input->sizes)) + input->more[i], most = longest(i);
    input->lengths[i] = (size_t)(length < 0 ? 0 : length > most ? most : length);
  }
}

/* Takes so many bytes off the data, and zeros where it ends. */
static void take(const uint8_t **data, size_t *size, uint8_t *bytes, size_t length) {
  size_t present = length < *size ? length : *size;
  if (present > 0) memcpy(bytes, *data, present);
  if (length > present) memset(bytes + present, 0, length - present);
  *data += present;
  *size -= present;
}

static uint32_t take_number(const uint8_t **data, size_t *size) {
  uint8_t bytes[4];
  take(data, size, bytes, sizeof bytes);
  return number_at(bytes);
}

/* A byte above LENT says LENT, too. */
static enum which take_which(const uint8_t **data, size_t *size) {
  uint8_t byte;
  take(data, size, &byte, 1);
  return byte < LENT ? (enum which)byte : LENT;
}

/* Whether a buffer's contents are worked out and do not stand in the input. */
static bool worked_out(const struct input *input, size_t i) { return part_of(i) == PART_POINTS && input->points == BUILT_IN; }

void unpack(struct input *input, const uint8_t *data, size_t size) {
  input->sizes = (struct sizes){.m = 0, .n = 1, .k = 2, .l = 1, .t = 1, .challenge = 1};
  for (size_t i = 0; i < target.call->number_count; i++) *number_of(target.call->numbers[i], &input->sizes) = take_number(&data, &size);
  input->points = takes_points() ? take_which(&data, &size) : NO_POINTS;
  for (size_t i = 0; i < buffer_count(); i++) input->more[i] = has_number(i) ? (int32_t)take_number(&data, &size) : 0;
  if (reads_sheet()) input->more[0] = (int32_t)size;
  cut(input);
  for (size_t i = 0; i < input_count(); i++) {
    if (worked_out(input, i)) {
      put_built_in(input->contents[i], input->lengths[i], input->sizes.k);
    } else {
      take(&data, &size, input->contents[i], input->lengths[i]);
    }
  }
}

size_t pack(const struct input *input, uint8_t *data, size_t most) {
  struct sizes sizes = input->sizes;
  uint8_t front[4 * (MOST_NUMBERS + MOST_BUFFERS) + 1], *next = front;
  for (size_t i = 0; i < target.call->number_count; i++, next += 4) put_number(next, *number_of(target.call->numbers[i], &sizes));
  if (takes_points()) *next++ = (uint8_t)input->points;
  for (size_t i = 0; i < buffer_count(); i++) {
    if (!has_number(i)) continue;
    put_number(next, (uint32_t)input->more[i]);
    next += 4;
  }

  size_t size = (size_t)(next - front) < most ? (size_t)(next - front) : most;
  if (size > 0) memcpy(data, front, size);
  for (size_t i = 0; i < input_count(); i++) {
    size_t length = input->lengths[i] < most - size ? input->lengths[i] : most - size;
    if (worked_out(input, i)) continue;
    if (length > 0) memcpy(data + size, input->contents[i], length);
    size += length;
  }
  while (size > 1 && data[size - 1] == 0) size--;
  return size;
}

/* ---- Check 2: the header's limits, and the lengths of the description */

bool permitted(uint32_t value, enum number number, uint32_t k) {
  switch (number) {
    case NUMBER_M: return value <= LOMVUZE_MAX_M;
    case NUMBER_N: return LOMVUZE_MIN_N <= value && value <= LOMVUZE_MAX_N;
    case NUMBER_K: return LOMVUZE_MIN_K <= value && value <= LOMVUZE_MAX_K && (value & (value - 1)) == 0;
    case NUMBER_L: return LOMVUZE_MIN_L <= value && value <= LOMVUZE_MAX_L;
    case NUMBER_T: return LOMVUZE_MIN_T <= value && value <= LOMVUZE_MAX_T(k);
    case NUMBER_CHALLENGE:
    case NUMBER_END: break;
  }
  return true;
}

/* Whether a buffer has a length that the sizes give. How long a sheet may be is for check 1. */
static bool length_fits(const struct input *input, size_t i) {
  size_t length = input->lengths[i], each = length_of(part_of(i), &input->sizes);
  if (part_of(i) == PART_SHEET || (kind_at(i) == OR_EMPTY && length == 0)) return true;
  return kind_at(i) == UP_TO ? length % each == 0 && length / each <= described_parts[part_of(i)].most : length == each;
}

bool fits(const struct input *input) {
  struct sizes sizes = input->sizes;
  for (size_t i = 0; i < target.call->number_count; i++) {
    enum number number = target.call->numbers[i];
    if (!permitted(*number_of(number, &sizes), number, sizes.k)) return false;
  }
  for (size_t i = 0; i < buffer_count(); i++) {
    if (!length_fits(input, i)) return false;
  }
  return true;
}
