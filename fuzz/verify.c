/* lomvuze_verify */
#include "target.h"

/* ---- Blocks */

/* Those of a message: the byte 0x80 and eight bytes of length follow it, and zeros between them fill its last block (FIPS 180-4, 5.1.1). */
static uint64_t message_blocks(uint64_t length) { return (length + 1 + 8 + 63) / 64; }

/* A leaf is a byte, the position and the value; an inner node, one on each of log2(4k) levels, is a byte and two digests. */
static uint64_t opening_blocks(uint32_t k) { return message_blocks(1 + 4 + 4) + depth_of(k) * message_blocks(1 + 32 + 32); }

/* The root of item i, or of the new one where i is l. */
static const uint8_t *root_of(const struct call *c, size_t i) {
  const struct sizes *s = &c->sizes;
  const uint8_t *item = i < s->l ? c->in[0].bytes + i * LOMVUZE_ITEM_BYTES(s->m, s->n) : c->in[3].bytes;
  return item + LOMVUZE_ITEM_ROOT(s->m, s->n);
}

/*
 * The first opening that does not lead to its root, or the count of them where all do. Each is tried alone: as the opening of the item and of the new
 * item of a fold of one item, which has its root and is accepted where it leads there.
 */
static size_t first_failing(const struct call *c) {
  const struct sizes *s = &c->sizes;
  size_t length = LOMVUZE_OPENING_BYTES(s->k), each = s->l + 1, all = s->t * each;
  struct buffer item = scratch(LOMVUZE_ITEM_BYTES(0, 1)), none = scratch(0), twice = scratch(2 * length);
  put_number(item.bytes + LOMVUZE_ITEM_X(0), 1);
  for (size_t j = 0; j < all; j++) {
    struct buffer position = slice(c->in[1], LOMVUZE_POSITIONS_BYTES(j / each), LOMVUZE_POSITIONS_BYTES(1));
    memcpy(item.bytes + LOMVUZE_ITEM_ROOT(0, 1), root_of(c, j % each), LOMVUZE_DIGEST_BYTES);
    for (size_t i = 0; i < 2; i++) memcpy(twice.bytes + i * length, c->in[4].bytes + j * length, length);
    uint64_t alone = lomvuze_verify(0, 1, s->k, 1, 1, 1, BYTES(item), BYTES(position), BYTES(none), BYTES(item), BYTES(twice));
    if (LOMVUZE_VERDICT(alone) != LOMVUZE_ACCEPTED) return j;
  }
  return all;
}

/*
 * Where openings were hashed, they are all, or those up to the first that does not lead to its root, and that one whole. With an opening before that
 * one changed, hashing ends there; with one behind it, the answer stays.
 */
static void check_blocks(const struct call *c, uint64_t answer) {
  const struct sizes *s = &c->sizes;
  uint32_t verdict = LOMVUZE_VERDICT(answer);
  if (comes_before(verdict, LOMVUZE_OPENING)) return; /* target.c: no blocks */
  size_t length = LOMVUZE_OPENING_BYTES(s->k), all = s->t * (s->l + 1), failing = verdict == LOMVUZE_OPENING ? first_failing(c) : all;
  REQUIRE(verdict != LOMVUZE_OPENING || failing < all, "every opening leads to its root");
  uint64_t each = opening_blocks(s->k), blocks = (failing < all ? failing + 1 : all) * each;
  REQUIRE(LOMVUZE_BLOCKS(answer) == blocks, "blocks that are not those of the openings hashed");
  REQUIRE(LOMVUZE_VERIFY_BLOCKS(s->k, s->l, s->t) == all * each, "blocks that are not those planned");

  size_t changed = s->challenge % all;
  if (changed == failing) return; /* the change could mend it */
  uint8_t *last = c->in[4].bytes + (changed + 1) * length - 1;
  *last ^= 1;
  uint64_t expected = changed < failing ? 64 * (changed + 1) * each + LOMVUZE_OPENING : answer;
  REQUIRE(run_verify(c) == expected, "blocks do not end with the first opening that fails");
  *last ^= 1;
}

/*
 * Verifying at each position alone: the first check that fails at any of them is the verdict. With another opening it is not 0, and with another
 * first input of the new item it is check 7.
 */
static void compare(const struct call *c, uint64_t answer) {
  const struct sizes *s = &c->sizes;
  size_t all = LOMVUZE_ALL_OPENINGS_BYTES(s->k, s->l, 1);
  uint32_t verdict = LOMVUZE_VERDICT(answer), least = LOMVUZE_ACCEPTED;
  for (uint32_t q = 0; q < s->t; q++) {
    struct buffer position = slice(c->in[1], LOMVUZE_POSITIONS_BYTES(q), LOMVUZE_POSITIONS_BYTES(1)), openings = slice(c->in[4], q * all, all);
    uint32_t alone = LOMVUZE_VERDICT(lomvuze_verify(s->m, s->n, s->k, s->l, 1, s->challenge, BYTES(c->in[0]), BYTES(position), BYTES(c->in[2]),
                                                    BYTES(c->in[3]), BYTES(openings)));
    if (alone != LOMVUZE_ACCEPTED && (least == LOMVUZE_ACCEPTED || comes_before(alone, least))) least = alone;
  }
  REQUIRE(verdict == least, "the positions one by one have another verdict");
  check_blocks(c, answer);
  if (verdict != LOMVUZE_ACCEPTED) return;

  size_t at = s->challenge % c->in[4].length;
  c->in[4].bytes[at] ^= 1;
  REQUIRE(LOMVUZE_VERDICT(run_verify(c)) != LOMVUZE_ACCEPTED, "another opening is accepted");
  c->in[4].bytes[at] ^= 1;
  uint8_t *first = c->in[3].bytes + LOMVUZE_ITEM_X(s->m);
  put_number(first, 0);
  REQUIRE(run_verify(c) == LOMVUZE_NEW_ITEM, "another first input of the new item is not refused by its check");
  put_number(first, 1);
}

/* Gives the new item the root and the openings of another item: the openings lead to their roots, but do not combine. */
static void change(struct input *input, size_t (*below)(size_t)) {
  const struct sizes *s = &input->sizes;
  if (!fits(input)) return;
  size_t i = below(s->l), root = LOMVUZE_ITEM_ROOT(s->m, s->n), opening = LOMVUZE_OPENING_BYTES(s->k);
  memcpy(input->contents[3] + root, input->contents[0] + i * LOMVUZE_ITEM_BYTES(s->m, s->n) + root, LOMVUZE_DIGEST_BYTES);
  for (size_t q = 0; q < s->t; q++) {
    uint8_t *openings = input->contents[4] + q * (s->l + 1) * opening;
    memcpy(openings + s->l * opening, openings + i * opening, opening);
  }
}

const struct target target = {&described_calls[CALL_VERIFY], compare, change};
