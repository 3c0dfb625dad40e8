/*
 * lomvuze.hpp: the whole chain over containers, two items of w0 * w1 = x1, with numbers that are picked and with drawn ones, over the built-in points
 * and over others, with empty vectors whose pointer is null. What lomvuze.h writes for the same arguments is the same. Prints one line; the exit
 * status is 1 where something fails.
 */
#include "lomvuze.hpp"

#include <array>
#include <string>
#include <vector>
#if __cplusplus >= 202002L
#include <span>
#endif

#include "require.h"

using bytes = std::vector<uint8_t>;

/* ---- What an `in` and an `out` may be made of */

static_assert(std::is_convertible<const bytes &, lomvuze::in>::value, "a constant vector is read");
static_assert(!std::is_convertible<const bytes &, lomvuze::out>::value, "and not written");
static_assert(std::is_convertible<bytes &, lomvuze::out>::value, "a vector is written");
static_assert(std::is_convertible<std::array<uint8_t, 4> &, lomvuze::out>::value, "so is an array");
static_assert(std::is_convertible<const std::string &, lomvuze::in>::value, "a string is read");
static_assert(!std::is_convertible<std::vector<uint32_t> &, lomvuze::in>::value, "elements have one byte");
static_assert(!std::is_convertible<const uint8_t (&)[4], lomvuze::out>::value, "a constant array is not written");
static_assert(!std::is_convertible<const char (&)[4], lomvuze::in>::value, "a literal, with its last 0, is not read");
static_assert(!std::is_convertible<int, lomvuze::in>::value, "nor is a number");

/* ---- What is returned */

static_assert(std::is_same<decltype(lomvuze::verify(0, 1, 2, 1, 1, 1, {}, {}, {}, {}, {})), uint64_t>::value, "the whole answer");
static_assert(std::is_same<decltype(lomvuze::decide(0, 1, 2, {}, {}, {}, {}, {}, {})), uint32_t>::value, "a verdict");
static_assert(std::is_same<decltype(lomvuze::draw_challenge(0, 1, 2, 1, {}, {}, {}, {})), uint32_t>::value, "another");

/* ---- The chain */

static bytes numbers(std::initializer_list<uint32_t> list) {
  bytes all;
  for (uint32_t number : list)
    for (int i = 0; i < 4; i++) all.push_back(static_cast<uint8_t>(number >> (8 * i)));
  return all;
}

static bytes operator+(bytes first, const bytes &second) {
  first.insert(first.end(), second.begin(), second.end());
  return first;
}

static void chain(const bytes &points) {
  const bytes a = numbers({0, 2, 1}), b = numbers({0, 3, 1}), c = numbers({0, 1, 1}), r;
  const bytes w0 = numbers({2, 3}), w1 = numbers({4, 5}), wits = w0 + w1, positions = numbers({7, 0, 4});
  bytes item0(LOMVUZE_ITEM_BYTES(0, 2)), item1(item0.size()), item(item0.size()), w(w0.size());
  bytes quotient(LOMVUZE_QUOTIENT_BYTES(0, 2)), same(quotient.size());
  REQUIRE(r.data() == nullptr);
  REQUIRE(lomvuze::cast(0, 2, 2, points, a, b, c, r, numbers({1, 6}), w0, item0) == LOMVUZE_ACCEPTED);
  REQUIRE(lomvuze::cast(0, 2, 2, points, a, b, c, {}, numbers({1, 20}), w1, item1) == LOMVUZE_ACCEPTED);
  REQUIRE(lomvuze::cast(0, 2, 2, points, a, b, c, r, numbers({1, 21}), w1, item) == LOMVUZE_CLAIM);
  REQUIRE(lomvuze::cast(0, 2, 2, points, a, b, c, r, numbers({2, 20}), w1, item) == LOMVUZE_FIRST_INPUT);
  const bytes items = item0 + item1;
  REQUIRE(lomvuze::quotient(0, 2, 2, 2, points, a, b, c, items, wits, same) == LOMVUZE_ACCEPTED);
  REQUIRE(lomvuze::fold(0, 2, 2, 2, 2, points, a, b, c, items, wits, quotient, item, w) == LOMVUZE_ACCEPTED);
  REQUIRE(quotient == numbers({4}) && quotient == same && w == numbers({6, 7}));
  REQUIRE(lomvuze_number(item.data() + LOMVUZE_ITEM_E) == 8 && lomvuze_number(item.data() + LOMVUZE_ITEM_X(0)) == 1);
  REQUIRE(lomvuze_number(item.data() + LOMVUZE_ITEM_X(0) + LOMVUZE_NUMBER_BYTES) == 34);

  bytes opened, openings(LOMVUZE_ALL_OPENINGS_BYTES(2, 2, 3));
  for (const bytes &witness : {w0, w1, w}) {
    bytes one(LOMVUZE_OPENINGS_BYTES(2, 3));
    REQUIRE(lomvuze::open(2, 3, points, witness, positions, one) == LOMVUZE_ACCEPTED);
    opened = opened + one;
  }
  REQUIRE(lomvuze::interleave(2, 2, 3, opened, openings) == LOMVUZE_ACCEPTED);
  const uint64_t verified = lomvuze::verify(0, 2, 2, 2, 3, 2, items, positions, quotient, item, openings);
  REQUIRE(LOMVUZE_VERDICT(verified) == LOMVUZE_ACCEPTED && LOMVUZE_BLOCKS(verified) == LOMVUZE_VERIFY_BLOCKS(2, 2, 3));
  REQUIRE(lomvuze::verify(0, 2, 2, 2, 3, 1, items, positions, quotient, item, openings) == LOMVUZE_CHALLENGE);
  REQUIRE(lomvuze::decide(0, 2, 2, points, a, b, c, item, w) == LOMVUZE_ACCEPTED);
  REQUIRE(lomvuze::decide(0, 2, 2, points, a, b, c, item0, w) == LOMVUZE_ROOT);
  REQUIRE(lomvuze::decide(0, 2, 2, points, b, a, a, item, w) == LOMVUZE_CLAIM);
  REQUIRE(lomvuze::decide(0, 2, 2, numbers({1, 2, 3, 4, 5, 6, 7, 8}), a, b, c, item, w) == LOMVUZE_ROOT);
}

/* ---- The chain with drawn numbers. Row 1 has no entries: m = 1, so that there is an r to draw. */

/* The items of 2 * 3 = 6 and 4 * 5 = 20. */
static bytes cast_drawn(const bytes &points, const bytes &a, const bytes &b, const bytes &c) {
  bytes items, code(LOMVUZE_CODEWORD_BYTES(2)), root(LOMVUZE_DIGEST_BYTES), r(LOMVUZE_R_BYTES(1)), item(LOMVUZE_ITEM_BYTES(1, 2));
  for (uint32_t w0 : {2u, 4u}) {
    const bytes x = numbers({1, w0 * (w0 + 1)}), w = numbers({w0, w0 + 1});
    REQUIRE(lomvuze::encode(2, points, w, code, root) == LOMVUZE_ACCEPTED);
    REQUIRE(lomvuze::draw_r(1, 2, root, x, r) == LOMVUZE_ACCEPTED);
    REQUIRE(lomvuze::cast(1, 2, 2, points, a, b, c, r, x, w, item) == LOMVUZE_ACCEPTED);
    items = items + item;
  }
  return items;
}

static void drawn_chain(const bytes &points) {
  const bytes a = numbers({0, 2, 1}), b = numbers({0, 3, 1}), c = numbers({0, 1, 1}), w0 = numbers({2, 3}), w1 = numbers({4, 5});
  const bytes items = cast_drawn(points, a, b, c);
  bytes quotient(LOMVUZE_QUOTIENT_BYTES(1, 2)), again(quotient.size()), item(LOMVUZE_ITEM_BYTES(1, 2)), w(w0.size());
  bytes seed(LOMVUZE_SEED_BYTES), drawn(LOMVUZE_CHALLENGE_BYTES), same_seed(seed.size()), same(drawn.size()), positions(LOMVUZE_POSITIONS_BYTES(8));
  REQUIRE(lomvuze::quotient(1, 2, 2, 2, points, a, b, c, items, w0 + w1, quotient) == LOMVUZE_ACCEPTED);
  REQUIRE(lomvuze::draw_challenge(1, 2, 2, 2, items, quotient, seed, drawn) == LOMVUZE_ACCEPTED);
  REQUIRE(lomvuze_draw_challenge(1, 2, 2, 2, items.data(), items.size(), quotient.data(), quotient.size(), same_seed.data(), same_seed.size(),
                                 same.data(), same.size()) == LOMVUZE_ACCEPTED);
  REQUIRE(seed == same_seed && drawn == same);
  const uint32_t challenge = lomvuze_number(drawn.data());
  REQUIRE(lomvuze::fold(1, 2, 2, 2, challenge, points, a, b, c, items, w0 + w1, again, item, w) == LOMVUZE_ACCEPTED && again == quotient);
  const lomvuze::in root(item.data() + LOMVUZE_ITEM_ROOT(1, 2), LOMVUZE_DIGEST_BYTES);
  REQUIRE(lomvuze::draw_positions(2, 2, 8, challenge, seed, root, positions) == LOMVUZE_ACCEPTED);
  REQUIRE(lomvuze::draw_positions(2, 2, 8, 1, seed, root, positions) == LOMVUZE_CHALLENGE);

  bytes opened, openings(LOMVUZE_ALL_OPENINGS_BYTES(2, 2, 8));
  for (const bytes &witness : {w0, w1, w}) {
    bytes one(LOMVUZE_OPENINGS_BYTES(2, 8));
    REQUIRE(lomvuze::open(2, 8, points, witness, positions, one) == LOMVUZE_ACCEPTED);
    opened = opened + one;
  }
  REQUIRE(lomvuze::interleave(2, 2, 8, opened, openings) == LOMVUZE_ACCEPTED);
  REQUIRE(LOMVUZE_VERDICT(lomvuze::verify(1, 2, 2, 2, 8, challenge, items, positions, quotient, item, openings)) == LOMVUZE_ACCEPTED);
  REQUIRE(lomvuze::decide(1, 2, 2, points, a, b, c, item, w) == LOMVUZE_ACCEPTED);
}

/* The codeword of (0, 1) is the list of points: the built-in ones, lent by hand, give what an empty buffer gives. Then what is refused. */
static void lent_points() {
  const bytes w = numbers({2, 3});
  bytes points(LOMVUZE_POINTS_BYTES(2)), code(LOMVUZE_CODEWORD_BYTES(2)), same(code.size()), root(LOMVUZE_DIGEST_BYTES), same_root(root.size());
  REQUIRE(lomvuze::encode(2, lomvuze::built_in_points(), numbers({0, 1}), points, root) == LOMVUZE_ACCEPTED);
  REQUIRE(lomvuze::encode(2, {}, w, code, root) == LOMVUZE_ACCEPTED);
  REQUIRE(lomvuze::encode(2, points, w, same, same_root) == LOMVUZE_ACCEPTED && code == same && root == same_root);
  REQUIRE(lomvuze::encode(2, numbers({0, 1, 2, 3, 4, 5, 6, LOMVUZE_P - 1}), w, code, root) == LOMVUZE_ACCEPTED);
  REQUIRE(code == numbers({2, 5, 8, 11, 14, 17, 20, LOMVUZE_P - 1}) && root != same_root);
  REQUIRE(lomvuze::encode(2, numbers({0, 1, 2, 3, 4, 5, 6, 0}), w, code, root) == LOMVUZE_POINTS);
  REQUIRE(lomvuze::encode(2, numbers({0, 1, 2, 3, 4, 5, 6, LOMVUZE_P}), w, code, root) == LOMVUZE_POINTS);
  REQUIRE(lomvuze::encode(2, numbers({0, 1, 2, 3, 4, 5, 6}), w, code, root) == LOMVUZE_SIZE);
}

/* One item without a circuit: points, entries, r, lent or drawn, and quotient are empty, and so are the vectors' pointers null. */
static void empty() {
  const bytes none, x = numbers({1}), w = numbers({2, 3});
  bytes quotient, item(LOMVUZE_ITEM_BYTES(0, 1)), new_item(item.size()), new_w(w.size());
  REQUIRE(none.data() == nullptr && quotient.data() == nullptr);
  REQUIRE(lomvuze::in(none).data() != nullptr && lomvuze::out(quotient).data() != nullptr);
  REQUIRE(lomvuze::cast(0, 1, 2, none, none, none, none, none, x, w, item) == LOMVUZE_ACCEPTED);
  REQUIRE(lomvuze::fold(0, 1, 2, 1, 1, none, none, none, none, item, w, quotient, new_item, new_w) == LOMVUZE_ACCEPTED);
  REQUIRE(lomvuze_fold(0, 1, 2, 1, 1, LOMVUZE_BUILT_IN_POINTS, LOMVUZE_EMPTY, LOMVUZE_EMPTY, LOMVUZE_EMPTY, item.data(), item.size(), w.data(),
                       w.size(), lomvuze_out(quotient.data(), quotient.size()), quotient.size(), new_item.data(), new_item.size(), new_w.data(),
                       new_w.size()) == LOMVUZE_ACCEPTED);
  REQUIRE(new_item == item && new_w == w);

  bytes r, seed(LOMVUZE_SEED_BYTES), challenge(LOMVUZE_CHALLENGE_BYTES);
  REQUIRE(lomvuze::draw_challenge(0, 1, 2, 1, item, quotient, seed, challenge) == LOMVUZE_ACCEPTED);
  REQUIRE(lomvuze::draw_r(0, 1, seed, x, r) == LOMVUZE_ACCEPTED && lomvuze::draw_r(0, 1, seed, numbers({2}), {}) == LOMVUZE_FIRST_INPUT);
}

static void other_kinds() {
  const std::array<uint8_t, 8> w = {{2, 0, 0, 0, 3, 0, 0, 0}};
  uint8_t code[LOMVUZE_CODEWORD_BYTES(2)];
  bytes root(LOMVUZE_DIGEST_BYTES), same(root.size());
  REQUIRE(lomvuze::encode(2, {}, w, code, root) == LOMVUZE_ACCEPTED);
  REQUIRE(lomvuze::encode(2, {}, {w.data(), 4}, code, root) == LOMVUZE_SIZE);
  REQUIRE(lomvuze_encode(2, LOMVUZE_BUILT_IN_POINTS, w.data(), w.size(), code, sizeof code, same.data(), same.size()) == LOMVUZE_ACCEPTED);
  REQUIRE(root == same);

  const std::string zeros(64, '0'), sheet = "size\t0\t2\t2\nitem\t0\t1\t6\t" + zeros + "\nwit\t2\t3\nend\t1\n";
  bytes entries[3], items(LOMVUZE_SHEET_ITEMS_BYTES), wits(LOMVUZE_SHEET_WITNESSES_BYTES);
  for (bytes &list : entries) list.resize(LOMVUZE_SHEET_ENTRIES_BYTES);
  uint32_t sizes[7];
  REQUIRE(lomvuze::read_sheet(sheet, entries[0], entries[1], entries[2], items, wits, sizes) == LOMVUZE_ACCEPTED);
  REQUIRE(sizes[2] == 2 && sizes[6] == 1 && wits[0] == 2 && wits[4] == 3);
  REQUIRE(lomvuze::read_sheet(std::string(), {}, {}, {}, {}, {}, sizes) == LOMVUZE_SHEET);
#if __cplusplus >= 202002L
  REQUIRE(lomvuze::encode(2, {}, std::span(w), std::span(code), std::span(root).first(32)) == LOMVUZE_ACCEPTED && root == same);
#endif
}

int main() {
  chain(bytes());
  chain(numbers({5, 0, LOMVUZE_P - 1, 1, 7, 31, 8, 6}));
  drawn_chain(bytes());
  drawn_chain(numbers({5, 0, LOMVUZE_P - 1, 1, 7, 31, 8, 6}));
  lent_points();
  empty();
  other_kinds();
  if (!failed) printf("containers: the chains, points, empty ones and other kinds as expected\n");
  return failed ? 1 : 0;
}
