/* Items: where their numbers stand, and which first inputs the call tests. */
#include "target.h"

size_t item_count(const struct sizes *s) { return 1 + s->m + s->n; }

uint8_t *item_number(const struct sizes *s, uint8_t *item, size_t j) {
  if (j == 0) return item + LOMVUZE_ITEM_E;
  size_t r = j - 1, x = r - s->m;
  return item + (r < s->m ? LOMVUZE_ITEM_R + r * LOMVUZE_NUMBER_BYTES : LOMVUZE_ITEM_X(s->m) + x * LOMVUZE_NUMBER_BYTES);
}

/* ---- First inputs */

/* The input that has them: x, or items. The new item, which verifying is given too, stands behind the items. */
static size_t leading_input(void) {
  size_t i = 0;
  while (i < input_count() && part_of(i) != PART_X && layout_at(i) != LAYOUT_ITEM) i++;
  return i;
}

/* The place behind so many tabs, or the end. */
static size_t behind_tabs(struct buffer sheet, size_t at, size_t tabs) {
  while (at < sheet.length && tabs > 0) tabs -= sheet.bytes[at++] == '\t';
  return at;
}

/* Of a sheet that passes checks 1 and 2: its first line has m, one digit, behind the first tab; an item has e, m numbers r, and then x. */
static size_t find_in_sheet(struct buffer sheet, uint8_t *at[LOMVUZE_MAX_PAIRS]) {
  size_t count = 0, size = behind_tabs(sheet, 0, 1);
  for (size_t i = size; i < sheet.length && count < LOMVUZE_MAX_PAIRS; i++) {
    if (sheet.bytes[i - 1] != '\n' || sheet.bytes[i] != 'i') continue;
    size_t x = behind_tabs(sheet, i, 2 + (size_t)(sheet.bytes[size] - '0'));
    if (x < sheet.length) at[count++] = sheet.bytes + x;
  }
  return count;
}

/* Where they stand, for a call that passes check 2, and how many they are. */
static size_t find(const struct call *call, uint8_t *at[LOMVUZE_MAX_PAIRS]) {
  const struct sizes *s = &call->sizes;
  if (reads_sheet()) return find_in_sheet(call->in[0], at);
  struct buffer buffer = call->in[leading_input()];
  bool alone = part_of(leading_input()) == PART_X;
  size_t place = alone ? 0 : LOMVUZE_ITEM_X(s->m), each = alone ? LOMVUZE_X_BYTES(s->n) : LOMVUZE_ITEM_BYTES(s->m, s->n);
  size_t count = 0;
  for (; place < buffer.length; place += each) at[count++] = buffer.bytes + place;
  return count;
}

/* On a sheet another field, which the root is in the end, follows. */
static bool is_one(const uint8_t *at) { return reads_sheet() ? memcmp(at, "1\t", 2) == 0 : number_at(at) == 1; }

bool ones_lead(const struct call *call) {
  uint8_t *at[LOMVUZE_MAX_PAIRS];
  for (size_t i = find(call, at); i > 0; i--) {
    if (!is_one(at[i - 1])) return false;
  }
  return true;
}

uint8_t *leading_one(const struct call *call, enum end end) {
  uint8_t *at[LOMVUZE_MAX_PAIRS];
  size_t count = find(call, at), i = end == FIRST ? 0 : count - 1;
  return count > 0 && is_one(at[i]) ? at[i] : NULL;
}

size_t leading_places(struct input *input, uint8_t *at[LOMVUZE_MAX_PAIRS]) {
  struct call call = {.sizes = input->sizes};
  if (!fits(input) || (!reads_sheet() && leading_input() == input_count())) return 0;
  for (size_t i = 0; i < input_count(); i++) call.in[i] = (struct buffer){input->contents[i], input->lengths[i]};
  return find(&call, at);
}
