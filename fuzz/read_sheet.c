/* lomvuze_read_sheet */
#include "target.h"

#include <inttypes.h>
#include <stdio.h>

/* The answer with buffers of the greatest lengths is the same. With one of them a byte shorter, check 2 fails, unless check 1 does. */
static void compare_lengths(const struct call *c, uint64_t answer) {
  struct call again = *c;
  for (size_t i = 0; i < 3; i++) again.out[i] = scratch(LOMVUZE_SHEET_ENTRIES_BYTES);
  again.out[3] = scratch(LOMVUZE_SHEET_ITEMS_BYTES);
  again.out[4] = scratch(LOMVUZE_SHEET_WITNESSES_BYTES);
  REQUIRE(run_read_sheet(&again) == answer, "buffers of the greatest lengths have another answer");
  for (size_t i = 0; i < 5; i++) {
    again.out[i].length--;
    uint32_t expected = answer == LOMVUZE_SHEET ? LOMVUZE_SHEET : LOMVUZE_SIZE;
    REQUIRE(run_read_sheet(&again) == expected, "a buffer that is too short is not refused by its check");
    again.out[i].length++;
  }
}

/* ---- Writing a sheet */

static char text[LONGEST];
static size_t length;

static void put_word(const char *word) { length += (size_t)sprintf(text + length, "%s", word); }

static void put_field(uint32_t number) { length += (size_t)sprintf(text + length, "\t%" PRIu32, number); }

static void put_line(const char *keyword, struct buffer numbers) {
  put_word(keyword);
  for (size_t i = 0; i < numbers.length; i += LOMVUZE_NUMBER_BYTES) put_field(number_at(numbers.bytes + i));
  put_word("\n");
}

static void put_item(const struct sizes *s, uint8_t *item) {
  put_word("item");
  for (size_t j = 0; j < item_count(s); j++) put_field(number_at(item_number(s, item, j)));
  put_word("\t");
  for (size_t i = 0; i < LOMVUZE_DIGEST_BYTES; i++) length += (size_t)sprintf(text + length, "%02x", item[LOMVUZE_ITEM_ROOT(s->m, s->n) + i]);
  put_word("\n");
}

/*
 * The sheet is what was read, written as text: the line rules leave one way to write it, but for the last byte. Deciding finds nothing wrong
 * with sizes, elements, circuit and first inputs.
 */
static void compare(const struct call *c, uint64_t answer) {
  compare_lengths(c, answer);
  if (answer != LOMVUZE_ACCEPTED) return;

  const uint32_t *sizes = sizes_read(c), m = sizes[0], n = sizes[1], k = sizes[2], pairs = sizes[6];
  struct buffer sheet = c->in[0];
  REQUIRE(sheet.length <= LOMVUZE_MAX_SHEET, "a sheet that is too long is accepted");
  REQUIRE(permitted(m, NUMBER_M, k) && permitted(n, NUMBER_N, k) && permitted(k, NUMBER_K, k), "a size that is not permitted");
  REQUIRE(1 <= pairs && pairs <= LOMVUZE_MAX_PAIRS, "a count of pairs that is not permitted");

  struct buffer none = scratch(0), lists[3], end = scratch(LOMVUZE_NUMBER_BYTES);
  const struct sizes of_items = {.m = m, .n = n};
  put_number(end.bytes, pairs);
  length = 0;
  put_line("size", slice(c->out[5], 0, 3 * LOMVUZE_NUMBER_BYTES));
  for (size_t i = 0; i < 3; i++) {
    lists[i] = slice(c->out[i], 0, written(c, i));
    for (uint32_t j = 0; j < sizes[3 + i]; j++) {
      put_line((const char *[]){"a", "b", "c"}[i], slice(lists[i], LOMVUZE_ENTRIES_BYTES(j), LOMVUZE_ENTRIES_BYTES(1)));
    }
  }
  for (uint32_t i = 0; i < pairs; i++) {
    struct buffer item = slice(c->out[3], LOMVUZE_ITEMS_BYTES(m, n, i), LOMVUZE_ITEM_BYTES(m, n));
    struct buffer wit = slice(c->out[4], LOMVUZE_WITNESSES_BYTES(k, i), LOMVUZE_WITNESS_BYTES(k));
    put_item(&of_items, item.bytes);
    put_line("wit", wit);
    uint32_t decided = lomvuze_decide(m, n, k, BYTES(none), BYTES(lists[0]), BYTES(lists[1]), BYTES(lists[2]), BYTES(item), BYTES(wit));
    REQUIRE(decided == LOMVUZE_ACCEPTED || decided == LOMVUZE_ROOT || decided == LOMVUZE_CLAIM, "deciding refuses what was read");
  }
  put_line("end", end);
  REQUIRE((sheet.length == length || sheet.length == length - 1) && memcmp(sheet.bytes, text, sheet.length) == 0, "the sheet says otherwise");
}

/* ---- Changes that mostly keep the line rules */

/* Puts other bytes in the place of a part of the sheet. */
static void replace(struct input *input, size_t start, size_t end, const void *bytes, size_t count) {
  uint8_t *sheet = input->contents[0];
  size_t rest = input->lengths[0] - end;
  memmove(sheet + start + count, sheet + end, rest);
  memcpy(sheet + start, bytes, count);
  input->more[0] = (int32_t)(start + count + rest);
  cut(input);
}

/* The place behind the next such byte, or the end. */
static size_t behind(const struct input *input, size_t at, uint8_t byte) {
  size_t end = input->lengths[0];
  while (at < end && input->contents[0][at] != byte) at++;
  return at < end ? at + 1 : end;
}

/* Sets the count on the last line. */
static void count_pairs(struct input *input) {
  const uint8_t *sheet = input->contents[0];
  size_t last = 0, pairs = 0;
  for (size_t at = 0; at < input->lengths[0]; at = behind(input, at, '\n')) {
    last = at;
    pairs += sheet[at] == 'i';
  }
  char line[16];
  replace(input, last, input->lengths[0], line, (size_t)sprintf(line, "end\t%zu\n", pairs));
}

/* Where a field starts: often one of the first line, or a first input. */
static size_t some_field(struct input *input, size_t (*below)(size_t)) {
  uint8_t *at[LOMVUZE_MAX_PAIRS];
  size_t count = leading_places(input, at), choice = below(8);
  if (choice < 2) return behind(input, below(8), '\t');
  if (choice == 2 && count > 0) return (size_t)(at[below(count)] - input->contents[0]);
  return behind(input, below(input->lengths[0]), '\t');
}

/* Another number in a field; or a line, or an item with its witness, copied or dropped. */
static void change(struct input *input, size_t (*below)(size_t)) {
  static const char *const numbers[] = {"0", "1", "2", "6", "7", "64", "65", "2013265920", "2013265921", "4294967295"};
  const uint8_t *sheet = input->contents[0];
  if (input->lengths[0] == 0) return;
  size_t start = below(input->lengths[0]);
  if (below(2) == 0) {
    const char *number = numbers[below(sizeof numbers / sizeof numbers[0])];
    size_t end = start = some_field(input, below);
    while (end < input->lengths[0] && sheet[end] >= '0') end++;
    replace(input, start, end, number, strlen(number));
  } else {
    while (start > 0 && (sheet[start - 1] != '\n' || sheet[start] == 'w')) start--;
    size_t end = behind(input, start, '\n');
    if (sheet[start] == 'i') end = behind(input, end, '\n');
    if (below(2) == 0) {
      replace(input, end, end, sheet + start, end - start);
    } else {
      replace(input, start, end, sheet, 0);
    }
    if (below(2) == 0) count_pairs(input);
  }
}

const struct target target = {&described_calls[CALL_READ_SHEET], compare, change};
