/*
 * Lomvuze: fold up to 8 items into one, verify the fold, decide the item that is left. For C11 and
 * C++11 (lomvuze.hpp: containers) on x86-64 Linux: cc .. $(pkg-config --cflags --libs lomvuze)
 *
 * An item is a claim about one circuit (R1CS): e, r, public inputs x, and the root of a witness. A
 * statement is what somebody hands in; lomvuze_cast makes an item of it.
 *
 * SIZES
 *   m  0 to 6                 a circuit has 2^m rows
 *   n  1 to 64                public inputs of an item
 *   k  2, 4, 8, 16, 32 or 64  numbers of a witness
 *   l  1 to 8                 items of a fold
 *   t  1 to 4k                positions at which a fold is opened; repeats are permitted
 *
 * BUFFERS are a pointer and a length in bytes, which must be exact: macros below give it. A number
 * takes 4 bytes, lowest first; an element is a number below p = 2013265921; a digest is 32 bytes.
 *   entries    up to 1024 times row, column, value: one of a circuit's lists A, B and C, strictly
 *              ascending by row and then column; rows below 2^m, columns below n + k: x, witness
 *   points     4k different elements, or empty for the built-in ones; one list for a whole batch
 *   witness    k elements, and its codeword 4k: the value at point i stands at position i
 *   item       e, r (m elements), x (n elements, of which the first is 1), root (a digest)
 *   quotient   (l - 1) * (m + 1) elements
 *   positions  t numbers below 4k
 *   opening    the codeword's value at a position, and log2(4k) digests from the leaf upwards
 * Several items, witnesses or openings follow one another without gaps.
 *
 * ANSWERS: the verdict of a call is 0 or the number of the first of its checks that fails (enum
 * lomvuze_answer); each check covers the whole input before the next one runs. Where it is not 0,
 * the call has written nothing. Calls return the verdict, but for lomvuze_verify, of whose answer
 * LOMVUZE_VERDICT is the verdict. Answers and outputs depend on a call's arguments alone.
 *
 * MEMORY
 *   - No pointer may be null, not even that of an empty buffer: see LOMVUZE_EMPTY.
 *   - Inputs may overlap each other. An output must not overlap any other buffer of the same call.
 *   - Buffers need no alignment, but for sizes_out of lomvuze_read_sheet.
 *   - The calls allocate nothing and keep nothing: there is no global state, and no pointer is used
 *     after the return. Several may run at the same time, as long as none writes to a buffer that
 *     another one uses.
 *   - "Stack" at a call: its deepest, measured at the greatest sizes with arguments, rounded up.
 *   - The time that a call takes may depend on the numbers in its buffers.
 *
 * CALLS, in the order of use; where nothing is drawn: cast, fold, open, interleave, verify, decide
 *   lomvuze_encode          codeword and root of a witness
 *   lomvuze_draw_r          r, from root and x
 *   lomvuze_cast            an item, from circuit, r, x and witness
 *   lomvuze_quotient        the quotient of l items
 *   lomvuze_draw_challenge  seed and challenge, from items and quotient
 *   lomvuze_fold            quotient, new item and new witness, from l items and their witnesses
 *   lomvuze_draw_positions  positions, from seed, challenge and the root of the new item
 *   lomvuze_open            the openings of one witness: of each item's and of the new one
 *   lomvuze_interleave      all these openings in the order in which lomvuze_verify reads them
 *   lomvuze_verify          tests a fold, without circuit or witness
 *   lomvuze_decide          tests one item, such as the new one, with its circuit and witness
 *   lomvuze_read_sheet      sizes, circuit, items and witnesses from a sheet of text
 *   lomvuze_strerror        what a verdict means
 *   lomvuze_version         the version of the library
 *
 * WHAT THE CALLER SEES TO
 *
 *   docs/OBLIGATIONS.md  seven things that no call can test, between a statement and a verdict
 *   docs/FORMAT.md       what the bytes mean, what is hashed for drawing, which blocks are counted
 *   docs/CALLS.md        the calls and their checks as tables
 *   CHANGES.md           what each version changed
 */
#ifndef LOMVUZE_H
#define LOMVUZE_H

#include <stddef.h>
#include <stdint.h>

/* ---- The version of this header: numbers, and the text "MAJOR.MINOR.PATCH" */

#define LOMVUZE_VERSION_MAJOR 0
#define LOMVUZE_VERSION_MINOR 7
#define LOMVUZE_VERSION_PATCH 0
#define LOMVUZE_VERSION \
  LOMVUZE_TEXT(LOMVUZE_VERSION_MAJOR, LOMVUZE_VERSION_MINOR, LOMVUZE_VERSION_PATCH)
#define LOMVUZE_TEXT(major, minor, patch) LOMVUZE_QUOTED(major, minor, patch)
#define LOMVUZE_QUOTED(major, minor, patch) #major "." #minor "." #patch

/* ---- Limits */

#define LOMVUZE_P UINT32_C(2013265921)
#define LOMVUZE_MAX_M 6
#define LOMVUZE_MIN_N 1
#define LOMVUZE_MAX_N 64
#define LOMVUZE_MIN_K 2
#define LOMVUZE_MAX_K 64
#define LOMVUZE_MIN_L 1
#define LOMVUZE_MAX_L 8
#define LOMVUZE_MIN_T 1
#define LOMVUZE_MAX_ENTRIES 1024
#define LOMVUZE_MAX_PAIRS 64
#define LOMVUZE_MAX_SHEET 60000

/*
 * The macros with arguments take any integer type, are constant where the arguments are, and
 * evaluate them more than once, but for LOMVUZE_VERDICT and LOMVUZE_BLOCKS, which evaluate theirs
 * once. As a size, a negative argument is above every limit. (In C++ a number that has the type
 * already is not cast, for -Wuseless-cast. The sum is for gcc, which warns where a narrow type has
 * only values within a limit.)
 */
#ifdef __cplusplus
extern "C++" {
template <class To>
struct lomvuze_as {
  static constexpr To of(To x) { return x; }
  template <class From>
  static constexpr To of(From x) {
    return static_cast<To>(x);
  }
};
}
#define LOMVUZE_AS(type, x) lomvuze_as<type>::of(x)
#else
#define LOMVUZE_AS(type, x) ((type)(x))
#endif
#define LOMVUZE_AS_SIZE(x) (LOMVUZE_AS(size_t, x) + 0)

/* log2(4k): the levels of the tree over a codeword. 4k: the greatest t. 0 for any other k. */
#define LOMVUZE_DEPTH(k)                         \
  LOMVUZE_AS_SIZE(LOMVUZE_AS_SIZE(k) == 2    ? 3 \
                  : LOMVUZE_AS_SIZE(k) == 4  ? 4 \
                  : LOMVUZE_AS_SIZE(k) == 8  ? 5 \
                  : LOMVUZE_AS_SIZE(k) == 16 ? 6 \
                  : LOMVUZE_AS_SIZE(k) == 32 ? 7 \
                  : LOMVUZE_AS_SIZE(k) == 64 ? 8 \
                                             : 0)
#define LOMVUZE_MAX_T(k) (LOMVUZE_IS_K(k) ? LOMVUZE_AS_SIZE(k) * 4 : 0)

/* Whether a size is permitted. */
#define LOMVUZE_IS_M(m) (LOMVUZE_AS_SIZE(m) <= LOMVUZE_MAX_M)
#define LOMVUZE_IS_N(n) \
  (LOMVUZE_AS_SIZE(n) >= LOMVUZE_MIN_N && LOMVUZE_AS_SIZE(n) <= LOMVUZE_MAX_N)
#define LOMVUZE_IS_K(k) (LOMVUZE_DEPTH(k) != 0)
#define LOMVUZE_IS_L(l) \
  (LOMVUZE_AS_SIZE(l) >= LOMVUZE_MIN_L && LOMVUZE_AS_SIZE(l) <= LOMVUZE_MAX_L)
#define LOMVUZE_IS_T(k, t) \
  (LOMVUZE_AS_SIZE(t) >= LOMVUZE_MIN_T && LOMVUZE_AS_SIZE(t) <= LOMVUZE_MAX_T(k))

/*
 * ---- Lengths in bytes
 *
 * Nothing wraps: where an argument is outside its limits, the length is LOMVUZE_NO_LENGTH, which no
 * buffer has. A count of entries, items, witnesses, positions or openings may be less than a call
 * permits, so item i starts at LOMVUZE_ITEMS_BYTES(m, n, i).
 */

#define LOMVUZE_NO_LENGTH SIZE_MAX
#define LOMVUZE_LENGTH(permitted, length) ((permitted) ? (length) : LOMVUZE_NO_LENGTH)

#define LOMVUZE_NUMBER_BYTES LOMVUZE_AS_SIZE(4)
#define LOMVUZE_DIGEST_BYTES LOMVUZE_AS_SIZE(32)

/* What lomvuze_draw_challenge writes. */
#define LOMVUZE_SEED_BYTES LOMVUZE_DIGEST_BYTES
#define LOMVUZE_CHALLENGE_BYTES LOMVUZE_NUMBER_BYTES

/* A list of `count` entries, up to LOMVUZE_MAX_ENTRIES. */
#define LOMVUZE_ENTRIES_BYTES(count) \
  LOMVUZE_LENGTH(LOMVUZE_AS_SIZE(count) <= LOMVUZE_MAX_ENTRIES, LOMVUZE_AS_SIZE(count) * 12)

/* r, x, a witness, and l witnesses, up to LOMVUZE_MAX_PAIRS. */
#define LOMVUZE_R_BYTES(m) LOMVUZE_LENGTH(LOMVUZE_IS_M(m), LOMVUZE_AS_SIZE(m) * 4)
#define LOMVUZE_X_BYTES(n) LOMVUZE_LENGTH(LOMVUZE_IS_N(n), LOMVUZE_AS_SIZE(n) * 4)
#define LOMVUZE_WITNESS_BYTES(k) LOMVUZE_LENGTH(LOMVUZE_IS_K(k), LOMVUZE_AS_SIZE(k) * 4)
#define LOMVUZE_WITNESSES_BYTES(k, l)                                        \
  LOMVUZE_LENGTH(LOMVUZE_IS_K(k) && LOMVUZE_AS_SIZE(l) <= LOMVUZE_MAX_PAIRS, \
                 LOMVUZE_AS_SIZE(l) * LOMVUZE_WITNESS_BYTES(k))

/* A codeword, and points that are lent. */
#define LOMVUZE_CODEWORD_BYTES(k) LOMVUZE_LENGTH(LOMVUZE_IS_K(k), LOMVUZE_AS_SIZE(k) * 16)
#define LOMVUZE_POINTS_BYTES(k) LOMVUZE_LENGTH(LOMVUZE_IS_K(k), LOMVUZE_AS_SIZE(k) * 16)

/* Where an item's e, r, x and root start, the item, and l items, up to LOMVUZE_MAX_PAIRS. */
#define LOMVUZE_ITEM_E LOMVUZE_AS_SIZE(0)
#define LOMVUZE_ITEM_R (LOMVUZE_ITEM_E + LOMVUZE_NUMBER_BYTES)
#define LOMVUZE_ITEM_X(m) LOMVUZE_LENGTH(LOMVUZE_IS_M(m), LOMVUZE_ITEM_R + LOMVUZE_R_BYTES(m))
#define LOMVUZE_ITEM_ROOT(m, n)                      \
  LOMVUZE_LENGTH(LOMVUZE_IS_M(m) && LOMVUZE_IS_N(n), \
                 LOMVUZE_ITEM_X(m) + LOMVUZE_X_BYTES(n))
#define LOMVUZE_ITEM_BYTES(m, n)                     \
  LOMVUZE_LENGTH(LOMVUZE_IS_M(m) && LOMVUZE_IS_N(n), \
                 LOMVUZE_ITEM_ROOT(m, n) + LOMVUZE_DIGEST_BYTES)
#define LOMVUZE_ITEMS_BYTES(m, n, l)                                                            \
  LOMVUZE_LENGTH(LOMVUZE_IS_M(m) && LOMVUZE_IS_N(n) && LOMVUZE_AS_SIZE(l) <= LOMVUZE_MAX_PAIRS, \
                 LOMVUZE_AS_SIZE(l) * LOMVUZE_ITEM_BYTES(m, n))

#define LOMVUZE_QUOTIENT_BYTES(m, l)                 \
  LOMVUZE_LENGTH(LOMVUZE_IS_M(m) && LOMVUZE_IS_L(l), \
                 (LOMVUZE_AS_SIZE(l) - 1) * (LOMVUZE_AS_SIZE(m) + 1) * 4)

#define LOMVUZE_POSITIONS_BYTES(t)                                      \
  LOMVUZE_LENGTH(LOMVUZE_AS_SIZE(t) <= LOMVUZE_MAX_T(LOMVUZE_MAX_K), \
                 LOMVUZE_AS_SIZE(t) * 4)

/*
 * One opening; the t that lomvuze_open writes; the t * (l + 1) that lomvuze_interleave writes and
 * lomvuze_verify reads.
 */
#define LOMVUZE_OPENING_BYTES(k) \
  LOMVUZE_LENGTH(LOMVUZE_IS_K(k), 4 + LOMVUZE_DEPTH(k) * LOMVUZE_DIGEST_BYTES)
#define LOMVUZE_OPENINGS_BYTES(k, t)                                        \
  LOMVUZE_LENGTH(LOMVUZE_IS_K(k) && LOMVUZE_AS_SIZE(t) <= LOMVUZE_MAX_T(k), \
                 LOMVUZE_AS_SIZE(t) * LOMVUZE_OPENING_BYTES(k))
#define LOMVUZE_ALL_OPENINGS_BYTES(k, l, t)                                                    \
  LOMVUZE_LENGTH(LOMVUZE_IS_K(k) && LOMVUZE_IS_L(l) && LOMVUZE_AS_SIZE(t) <= LOMVUZE_MAX_T(k), \
                 (LOMVUZE_AS_SIZE(l) + 1) * LOMVUZE_OPENINGS_BYTES(k, t))

/* The buffers of lomvuze_read_sheet: the greatest lengths. */
#define LOMVUZE_SHEET_ENTRIES_BYTES LOMVUZE_ENTRIES_BYTES(LOMVUZE_MAX_ENTRIES)
#define LOMVUZE_SHEET_ITEMS_BYTES \
  LOMVUZE_ITEMS_BYTES(LOMVUZE_MAX_M, LOMVUZE_MAX_N, LOMVUZE_MAX_PAIRS)
#define LOMVUZE_SHEET_WITNESSES_BYTES LOMVUZE_WITNESSES_BYTES(LOMVUZE_MAX_K, LOMVUZE_MAX_PAIRS)

/*
 * ---- Empty buffers
 *
 * LOMVUZE_EMPTY is an empty buffer as two arguments, for an input or an output, and
 * LOMVUZE_BUILT_IN_POINTS the same in the place of points. Empty are the quotient of one item, r
 * for m = 0, drawn or not, a circuit's list without entries, and the points where the built-in ones
 * are meant. lomvuze_in and lomvuze_out are for a buffer that may be empty: where the length is 0
 * they give a pointer that is not null, whatever the buffer's own is (null from malloc(0), or from
 * an empty std::vector), and else the buffer's own.
 */
static inline uint8_t *lomvuze_empty(void) {
  static uint8_t none; /* no call reads or writes it */
  return &none;
}

static inline const uint8_t *lomvuze_in(const uint8_t *bytes, size_t length) {
  return length != 0 ? bytes : lomvuze_empty();
}

static inline uint8_t *lomvuze_out(uint8_t *bytes, size_t length) {
  return length != 0 ? bytes : lomvuze_empty();
}

#define LOMVUZE_EMPTY lomvuze_empty(), 0
#define LOMVUZE_BUILT_IN_POINTS LOMVUZE_EMPTY

/* ---- The number in four bytes of a buffer, such as the challenge that was drawn */

static inline uint32_t lomvuze_number(const uint8_t bytes[4]) {
  return LOMVUZE_AS(uint32_t, bytes[0]) | LOMVUZE_AS(uint32_t, bytes[1]) << 8 |
         LOMVUZE_AS(uint32_t, bytes[2]) << 16 | LOMVUZE_AS(uint32_t, bytes[3]) << 24;
}

/*
 * ---- Answers
 *
 * The checks of each call stand at the call, in their order. LOMVUZE_ELEMENT looks neither at
 * points nor at the challenge: of p or more, these are LOMVUZE_POINTS and LOMVUZE_CHALLENGE.
 */

enum lomvuze_answer {
  LOMVUZE_ACCEPTED = 0,

  /* A sheet has over 60,000 bytes or breaks the line rules. */
  LOMVUZE_SHEET = 1,

  /* A size, item count, position count, entry count or `end` count is not permitted, or a buffer
   * does not have exactly the length that the sizes give. */
  LOMVUZE_SIZE = 2,

  /* An element, coefficient, entry's value or opened value is p or more. */
  LOMVUZE_ELEMENT = 3,

  /* A circuit entry is outside rows or columns, or out of order. */
  LOMVUZE_CIRCUIT = 4,

  /* The challenge is below l, or not below p. */
  LOMVUZE_CHALLENGE = 5,

  /* A position is 4k or more. */
  LOMVUZE_POSITION = 6,

  /* The new item's e, r or x is not the one that items, quotient and challenge give. */
  LOMVUZE_NEW_ITEM = 7,

  /* An opening does not lead to its item's root. */
  LOMVUZE_OPENING = 8,

  /* A new opened value is not the combination of the items' opened values. */
  LOMVUZE_COMBINATION = 9,

  /* An item's root is not that of its witness's codeword. */
  LOMVUZE_ROOT = 10,

  /* An item does not hold with its witness. */
  LOMVUZE_CLAIM = 11,

  /* A point repeats another, or is p or more. */
  LOMVUZE_POINTS = 12,

  /* An item's first input is not 1. */
  LOMVUZE_FIRST_INPUT = 13
};

/*
 * Verdict, a uint32_t, and SHA-256 blocks, a uint64_t, of what lomvuze_verify returns; and the
 * blocks of an accepted fold, a uint64_t, or 0 where a size is not permitted. What any other call
 * returns is its verdict, with no blocks.
 */
#define LOMVUZE_VERDICT(answer) LOMVUZE_AS(uint32_t, LOMVUZE_AS(uint64_t, answer) % 64)
#define LOMVUZE_BLOCKS(answer) (LOMVUZE_AS(uint64_t, answer) / 64)
#define LOMVUZE_VERIFY_BLOCKS(k, l, t)                                                      \
  LOMVUZE_AS(uint64_t,                                                                      \
             LOMVUZE_IS_K(k) && LOMVUZE_IS_L(l) && LOMVUZE_IS_T(k, t)                       \
                 ? LOMVUZE_AS_SIZE(t) * (LOMVUZE_AS_SIZE(l) + 1) * (1 + 2 * LOMVUZE_DEPTH(k)) \
                 : 0)

/*
 * ---- The calls
 *
 * Where the compiler can, it warns of a null pointer that it sees (gcc: with -Wall), and of an
 * answer that is ignored.
 */
#ifdef __GNUC__
#define LOMVUZE_CHECKED __attribute__((warn_unused_result))
#define LOMVUZE_CALL __attribute__((nonnull, warn_unused_result))
#else
#define LOMVUZE_CHECKED
#define LOMVUZE_CALL
#endif

#ifdef __cplusplus
extern "C" {
#endif

/*
 * Writes the codeword of a witness and the root of the tree over it (docs/FORMAT.md, Roots).
 *
 *   points    LOMVUZE_POINTS_BYTES(k), or none for the built-in points
 *   w         LOMVUZE_WITNESS_BYTES(k)
 *   code_out  LOMVUZE_CODEWORD_BYTES(k): at position i the sum over j of w_j * (point i)^j
 *   root_out  LOMVUZE_DIGEST_BYTES
 *
 * Checks, in this order: LOMVUZE_SIZE, LOMVUZE_ELEMENT, LOMVUZE_POINTS.
 *
 * Stack: 9,216 bytes.
 */
LOMVUZE_CALL
uint32_t lomvuze_encode(uint32_t k,
                        const uint8_t *points, size_t points_len,
                        const uint8_t *w, size_t w_len,
                        uint8_t *code_out, size_t code_out_len,
                        uint8_t *root_out, size_t root_out_len);

/*
 * Writes the item of a statement: e = 0, r and x as given, and the root of the witness's codeword.
 * Its value has to be 0, as it is for every r when every row of the circuit holds.
 *
 *   points    LOMVUZE_POINTS_BYTES(k), or none for the built-in points
 *   a, b, c   LOMVUZE_ENTRIES_BYTES of up to LOMVUZE_MAX_ENTRIES entries each
 *   r         LOMVUZE_R_BYTES(m)
 *   x         LOMVUZE_X_BYTES(n): its first number is 1
 *   w         LOMVUZE_WITNESS_BYTES(k)
 *   item_out  LOMVUZE_ITEM_BYTES(m, n)
 *
 * Checks, in this order: LOMVUZE_SIZE, LOMVUZE_ELEMENT, LOMVUZE_POINTS, LOMVUZE_CIRCUIT,
 * LOMVUZE_FIRST_INPUT, LOMVUZE_CLAIM.
 *
 * Stack: 9,216 bytes.
 */
LOMVUZE_CALL
uint32_t lomvuze_cast(uint32_t m, uint32_t n, uint32_t k,
                      const uint8_t *points, size_t points_len,
                      const uint8_t *a, size_t a_len,
                      const uint8_t *b, size_t b_len,
                      const uint8_t *c, size_t c_len,
                      const uint8_t *r, size_t r_len,
                      const uint8_t *x, size_t x_len,
                      const uint8_t *w, size_t w_len,
                      uint8_t *item_out, size_t item_out_len);

/*
 * Writes the quotient of l items, the one that lomvuze_fold writes at every challenge.
 *
 *   points        LOMVUZE_POINTS_BYTES(k), or none for the built-in points
 *   a, b, c       LOMVUZE_ENTRIES_BYTES of up to LOMVUZE_MAX_ENTRIES entries each
 *   items         LOMVUZE_ITEMS_BYTES(m, n, l)
 *   wits          LOMVUZE_WITNESSES_BYTES(k, l): item i's witness at place i
 *   quotient_out  LOMVUZE_QUOTIENT_BYTES(m, l): the coefficient of X^0 first
 *
 * Checks, in this order: LOMVUZE_SIZE, LOMVUZE_ELEMENT, LOMVUZE_POINTS, LOMVUZE_CIRCUIT,
 * LOMVUZE_FIRST_INPUT, LOMVUZE_ROOT, LOMVUZE_CLAIM.
 *
 * Stack: 9,728 bytes.
 */
LOMVUZE_CALL
uint32_t lomvuze_quotient(uint32_t m, uint32_t n, uint32_t k, uint32_t l,
                          const uint8_t *points, size_t points_len,
                          const uint8_t *a, size_t a_len,
                          const uint8_t *b, size_t b_len,
                          const uint8_t *c, size_t c_len,
                          const uint8_t *items, size_t items_len,
                          const uint8_t *wits, size_t wits_len,
                          uint8_t *quotient_out, size_t quotient_out_len);

/*
 * Folds l items at a challenge: writes their quotient, the new item and the new witness.
 *
 *   challenge     l to p - 1
 *   points        LOMVUZE_POINTS_BYTES(k), or none for the built-in points
 *   a, b, c       LOMVUZE_ENTRIES_BYTES of up to LOMVUZE_MAX_ENTRIES entries each
 *   items         LOMVUZE_ITEMS_BYTES(m, n, l)
 *   wits          LOMVUZE_WITNESSES_BYTES(k, l): item i's witness at place i
 *   quotient_out  LOMVUZE_QUOTIENT_BYTES(m, l): the coefficient of X^0 first
 *   item_out      LOMVUZE_ITEM_BYTES(m, n)
 *   wit_out       LOMVUZE_WITNESS_BYTES(k)
 *
 * Checks, in this order: LOMVUZE_SIZE, LOMVUZE_ELEMENT, LOMVUZE_POINTS, LOMVUZE_CIRCUIT,
 * LOMVUZE_FIRST_INPUT, LOMVUZE_CHALLENGE, LOMVUZE_ROOT, LOMVUZE_CLAIM.
 *
 * Stack: 11,264 bytes.
 */
LOMVUZE_CALL
uint32_t lomvuze_fold(uint32_t m, uint32_t n, uint32_t k, uint32_t l,
                      uint32_t challenge,
                      const uint8_t *points, size_t points_len,
                      const uint8_t *a, size_t a_len,
                      const uint8_t *b, size_t b_len,
                      const uint8_t *c, size_t c_len,
                      const uint8_t *items, size_t items_len,
                      const uint8_t *wits, size_t wits_len,
                      uint8_t *quotient_out, size_t quotient_out_len,
                      uint8_t *item_out, size_t item_out_len,
                      uint8_t *wit_out, size_t wit_out_len);

/*
 * Writes the openings of one witness's codeword at t positions, in the order of the positions.
 *
 *   points        LOMVUZE_POINTS_BYTES(k), or none for the built-in points
 *   w             LOMVUZE_WITNESS_BYTES(k)
 *   positions     LOMVUZE_POSITIONS_BYTES(t)
 *   openings_out  LOMVUZE_OPENINGS_BYTES(k, t)
 *
 * Checks, in this order: LOMVUZE_SIZE, LOMVUZE_ELEMENT, LOMVUZE_POINTS, LOMVUZE_POSITION.
 *
 * Stack: 19,968 bytes.
 */
LOMVUZE_CALL
uint32_t lomvuze_open(uint32_t k, uint32_t t,
                      const uint8_t *points, size_t points_len,
                      const uint8_t *w, size_t w_len,
                      const uint8_t *positions, size_t positions_len,
                      uint8_t *openings_out, size_t openings_out_len);

/*
 * Puts the openings of l items and of the new one in the order in which lomvuze_verify reads them.
 *
 *   opened        LOMVUZE_ALL_OPENINGS_BYTES(k, l, t): the l + 1 buffers that lomvuze_open wrote,
 *                 one witness after the other, the new one last. Those of item i start at
 *                 i * LOMVUZE_OPENINGS_BYTES(k, t), and the new item has i = l.
 *   openings_out  LOMVUZE_ALL_OPENINGS_BYTES(k, l, t): position by position and, within one, item
 *                 by item, the new item last
 *
 * Checks: LOMVUZE_SIZE. What the openings hold is not looked at.
 *
 * Stack: 512 bytes.
 */
LOMVUZE_CALL
uint32_t lomvuze_interleave(uint32_t k, uint32_t l, uint32_t t,
                            const uint8_t *opened, size_t opened_len,
                            uint8_t *openings_out, size_t openings_out_len);

/*
 * Verifies a fold of l items at t positions. It sees neither circuit nor witness, takes no points,
 * and has no output buffer.
 *
 *   challenge  l to p - 1
 *   items      LOMVUZE_ITEMS_BYTES(m, n, l)
 *   positions  LOMVUZE_POSITIONS_BYTES(t)
 *   quotient   LOMVUZE_QUOTIENT_BYTES(m, l)
 *   new_item   LOMVUZE_ITEM_BYTES(m, n)
 *   openings   LOMVUZE_ALL_OPENINGS_BYTES(k, l, t): position by position and, within one, item by
 *              item, the new item last. The opening of item i at position number q starts at
 *              (q * (l + 1) + i) * LOMVUZE_OPENING_BYTES(k), and the new item has i = l.
 *
 * Returns 64 * blocks + verdict, where blocks is how many SHA-256 blocks it processed: take it
 * apart by LOMVUZE_VERDICT and LOMVUZE_BLOCKS. An accepted fold has the verdict 0 and
 * LOMVUZE_VERIFY_BLOCKS(k, l, t) blocks, so that what is returned is not 0. Nothing is hashed
 * before LOMVUZE_OPENING: a refusal by a check before it is returned as the bare number.
 * docs/FORMAT.md, Blocks, has the count for each verdict.
 *
 * Checks, in this order: LOMVUZE_SIZE, LOMVUZE_ELEMENT, LOMVUZE_FIRST_INPUT, LOMVUZE_CHALLENGE,
 * LOMVUZE_POSITION, LOMVUZE_NEW_ITEM, LOMVUZE_OPENING, LOMVUZE_COMBINATION. LOMVUZE_FIRST_INPUT is
 * about the l items: another first input of new_item than 1 is LOMVUZE_NEW_ITEM.
 *
 * Stack: 2,560 bytes.
 */
LOMVUZE_CALL
uint64_t lomvuze_verify(uint32_t m, uint32_t n, uint32_t k, uint32_t l, uint32_t t,
                        uint32_t challenge,
                        const uint8_t *items, size_t items_len,
                        const uint8_t *positions, size_t positions_len,
                        const uint8_t *quotient, size_t quotient_len,
                        const uint8_t *new_item, size_t new_item_len,
                        const uint8_t *openings, size_t openings_len);

/*
 * Decides an item with its witness. It has no output buffer.
 *
 *   points   LOMVUZE_POINTS_BYTES(k), or none for the built-in points
 *   a, b, c  LOMVUZE_ENTRIES_BYTES of up to LOMVUZE_MAX_ENTRIES entries each
 *   item     LOMVUZE_ITEM_BYTES(m, n)
 *   wit      LOMVUZE_WITNESS_BYTES(k)
 *
 * Checks, in this order: LOMVUZE_SIZE, LOMVUZE_ELEMENT, LOMVUZE_POINTS, LOMVUZE_CIRCUIT,
 * LOMVUZE_FIRST_INPUT, LOMVUZE_ROOT, LOMVUZE_CLAIM.
 *
 * Stack: 9,216 bytes.
 */
LOMVUZE_CALL
uint32_t lomvuze_decide(uint32_t m, uint32_t n, uint32_t k,
                        const uint8_t *points, size_t points_len,
                        const uint8_t *a, size_t a_len,
                        const uint8_t *b, size_t b_len,
                        const uint8_t *c, size_t c_len,
                        const uint8_t *item, size_t item_len,
                        const uint8_t *wit, size_t wit_len);

/*
 * Draws the challenge of l items and a quotient, and writes the seed that it comes from too
 * (docs/FORMAT.md, Drawing). It sees neither circuit nor witness: whether the items hold, and
 * whether this is their quotient, is not tested.
 *
 *   items          LOMVUZE_ITEMS_BYTES(m, n, l)
 *   quotient       LOMVUZE_QUOTIENT_BYTES(m, l), such as lomvuze_quotient writes
 *   seed_out       LOMVUZE_SEED_BYTES
 *   challenge_out  LOMVUZE_CHALLENGE_BYTES: a number from l to p - 1, for lomvuze_number
 *
 * Checks, in this order: LOMVUZE_SIZE, LOMVUZE_ELEMENT, LOMVUZE_FIRST_INPUT.
 *
 * Stack: 2,048 bytes.
 */
LOMVUZE_CALL
uint32_t lomvuze_draw_challenge(uint32_t m, uint32_t n, uint32_t k, uint32_t l,
                                const uint8_t *items, size_t items_len,
                                const uint8_t *quotient, size_t quotient_len,
                                uint8_t *seed_out, size_t seed_out_len,
                                uint8_t *challenge_out, size_t challenge_out_len);

/*
 * Draws t positions of a fold. That the challenge was drawn from this seed is not tested.
 *
 *   challenge      l to p - 1: the one that was drawn with the seed
 *   seed           LOMVUZE_SEED_BYTES: as lomvuze_draw_challenge wrote it
 *   root           LOMVUZE_DIGEST_BYTES: that of the new item, from LOMVUZE_ITEM_ROOT(m, n) on
 *   positions_out  LOMVUZE_POSITIONS_BYTES(t): numbers below 4k, of which some may be equal
 *
 * Checks, in this order: LOMVUZE_SIZE, LOMVUZE_CHALLENGE.
 *
 * Stack: 2,048 bytes.
 */
LOMVUZE_CALL
uint32_t lomvuze_draw_positions(uint32_t k, uint32_t l, uint32_t t, uint32_t challenge,
                                const uint8_t *seed, size_t seed_len,
                                const uint8_t *root, size_t root_len,
                                uint8_t *positions_out, size_t positions_out_len);

/*
 * Draws the r of an item.
 *
 *   root   LOMVUZE_DIGEST_BYTES: the root of the item, such as lomvuze_encode writes
 *   x      LOMVUZE_X_BYTES(n): its first number is 1
 *   r_out  LOMVUZE_R_BYTES(m): with m = 0 it is empty, and the checks are run all the same
 *
 * Checks, in this order: LOMVUZE_SIZE, LOMVUZE_ELEMENT, LOMVUZE_FIRST_INPUT.
 *
 * Stack: 2,048 bytes.
 */
LOMVUZE_CALL
uint32_t lomvuze_draw_r(uint32_t m, uint32_t n,
                        const uint8_t *root, size_t root_len,
                        const uint8_t *x, size_t x_len,
                        uint8_t *r_out, size_t r_out_len);

/*
 * Reads a sheet of any bytes: the circuit's entries, the items and the witnesses. docs/SHEETS.md
 * describes the text. Each buffer is written from its front and without gaps, as the other calls
 * take it; what lies beyond is left as it was.
 *
 *   sheet           up to LOMVUZE_MAX_SHEET bytes
 *   a_out .. c_out  LOMVUZE_SHEET_ENTRIES_BYTES each
 *   items_out       LOMVUZE_SHEET_ITEMS_BYTES
 *   wits_out        LOMVUZE_SHEET_WITNESSES_BYTES
 *   sizes_out       m, n, k, the count of entries of A, B and C, and the count of pairs. An array
 *                   of numbers in the machine's own order, which has to be aligned as such.
 *
 * Checks, in this order: LOMVUZE_SHEET, LOMVUZE_SIZE, LOMVUZE_ELEMENT, LOMVUZE_CIRCUIT,
 * LOMVUZE_FIRST_INPUT.
 *
 * Stack: 50,688 bytes.
 */
LOMVUZE_CALL
uint32_t lomvuze_read_sheet(const uint8_t *sheet, size_t sheet_len,
                            uint8_t *a_out, size_t a_out_len,
                            uint8_t *b_out, size_t b_out_len,
                            uint8_t *c_out, size_t c_out_len,
                            uint8_t *items_out, size_t items_out_len,
                            uint8_t *wits_out, size_t wits_out_len,
                            uint32_t sizes_out[7]);

/*
 * Says what a verdict means, in a few words of English.
 *
 * Returns "accepted" for 0, and "unknown answer" for a number that is no verdict. What
 * lomvuze_verify returns is none where blocks were processed, also where it accepts: pass
 * LOMVUZE_VERDICT of it. The text is constant and is not to be freed.
 */
const char *lomvuze_strerror(uint32_t verdict);

/*
 * Says which version the library is.
 *
 * Returns LOMVUZE_VERSION of the header that the library was built with.
 */
const char *lomvuze_version(void);

#ifdef __cplusplus
}
#endif

#endif
