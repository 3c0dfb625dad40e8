/*
 * Lomvuze for C++11: the calls of lomvuze.h with containers in the place of pointers and lengths.
 *
 * A buffer that a call reads is an `in`, one that it writes is an `out`. Either stands for
 *
 *   - a container with data() and size() whose elements are single bytes: std::vector<uint8_t>,
 *     std::array, std::span; to read, also std::string. It may be empty, and its pointer null.
 *   - an array of uint8_t, {pointer, length}, or {}, which is empty.
 *
 * For the built-in points pass {}, or built_in_points(), which says so.
 *
 * Nothing else differs: lomvuze.h says what each call takes, answers and writes. So verify returns
 * the whole answer: LOMVUZE_VERDICT and LOMVUZE_BLOCKS take it apart. draw_challenge writes the
 * challenge as four bytes: lomvuze_number(challenge.data()) is what fold, draw_positions and verify
 * take. Lengths must be exact, so no container is resized. Nothing is copied, and nothing is thrown.
 */
#ifndef LOMVUZE_HPP
#define LOMVUZE_HPP

#include <type_traits>
#include <utility>

#include "lomvuze.h"

namespace lomvuze {

/* What data() of a container points to. */
template <class Container>
using element = typename std::remove_pointer<decltype(std::declval<Container &>().data())>::type;

template <class Element>
using if_read = typename std::enable_if<sizeof(Element) == 1>::type;

template <class Element>
using if_written = typename std::enable_if<sizeof(Element) == 1 && !std::is_const<Element>::value>::type;

class in {
 public:
  in() noexcept : in(lomvuze_empty(), 0) {}
  in(const uint8_t *bytes, size_t length) noexcept : first(lomvuze_in(bytes, length)), count(length) {}

  template <size_t N>
  in(const uint8_t (&array)[N]) noexcept : in(array, N) {}

  template <class Container, class = if_read<element<const Container>>>
  in(const Container &c) noexcept : in(reinterpret_cast<const uint8_t *>(c.data()), c.size()) {}

  const uint8_t *data() const noexcept { return first; }
  size_t size() const noexcept { return count; }

 private:
  const uint8_t *first;
  size_t count;
};

class out {
 public:
  out() noexcept : out(lomvuze_empty(), 0) {}
  out(uint8_t *bytes, size_t length) noexcept : first(lomvuze_out(bytes, length)), count(length) {}

  template <size_t N>
  out(uint8_t (&array)[N]) noexcept : out(array, N) {}

  template <class Container, class = if_written<element<Container>>>
  out(Container &&c) noexcept : out(reinterpret_cast<uint8_t *>(c.data()), c.size()) {}

  uint8_t *data() const noexcept { return first; }
  size_t size() const noexcept { return count; }

 private:
  uint8_t *first;
  size_t count;
};

/* The built-in points: an empty buffer. */
inline in built_in_points() noexcept { return in(); }

LOMVUZE_CHECKED inline uint32_t encode(uint32_t k, in points, in w, out code, out root) noexcept {
  return lomvuze_encode(k, points.data(), points.size(), w.data(), w.size(), code.data(), code.size(), root.data(),
                        root.size());
}

LOMVUZE_CHECKED inline uint32_t cast(uint32_t m, uint32_t n, uint32_t k, in points, in a, in b, in c, in r, in x, in w,
                     out item) noexcept {
  return lomvuze_cast(m, n, k, points.data(), points.size(), a.data(), a.size(), b.data(), b.size(), c.data(),
                      c.size(), r.data(), r.size(), x.data(), x.size(), w.data(), w.size(), item.data(), item.size());
}

LOMVUZE_CHECKED inline uint32_t quotient(uint32_t m, uint32_t n, uint32_t k, uint32_t l, in points, in a, in b, in c, in items,
                         in wits, out quotient) noexcept {
  return lomvuze_quotient(m, n, k, l, points.data(), points.size(), a.data(), a.size(), b.data(), b.size(), c.data(),
                          c.size(), items.data(), items.size(), wits.data(), wits.size(), quotient.data(),
                          quotient.size());
}

LOMVUZE_CHECKED inline uint32_t fold(uint32_t m, uint32_t n, uint32_t k, uint32_t l, uint32_t challenge, in points, in a, in b, in c,
                     in items, in wits, out quotient, out item, out wit) noexcept {
  return lomvuze_fold(m, n, k, l, challenge, points.data(), points.size(), a.data(), a.size(), b.data(), b.size(),
                      c.data(), c.size(), items.data(), items.size(), wits.data(), wits.size(), quotient.data(),
                      quotient.size(), item.data(), item.size(), wit.data(), wit.size());
}

LOMVUZE_CHECKED inline uint32_t open(uint32_t k, uint32_t t, in points, in w, in positions, out openings) noexcept {
  return lomvuze_open(k, t, points.data(), points.size(), w.data(), w.size(), positions.data(), positions.size(),
                      openings.data(), openings.size());
}

LOMVUZE_CHECKED inline uint32_t interleave(uint32_t k, uint32_t l, uint32_t t, in opened, out openings) noexcept {
  return lomvuze_interleave(k, l, t, opened.data(), opened.size(), openings.data(), openings.size());
}

LOMVUZE_CHECKED inline uint64_t verify(uint32_t m, uint32_t n, uint32_t k, uint32_t l, uint32_t t, uint32_t challenge, in items,
                       in positions, in quotient, in new_item, in openings) noexcept {
  return lomvuze_verify(m, n, k, l, t, challenge, items.data(), items.size(), positions.data(), positions.size(),
                        quotient.data(), quotient.size(), new_item.data(), new_item.size(), openings.data(),
                        openings.size());
}

LOMVUZE_CHECKED inline uint32_t decide(uint32_t m, uint32_t n, uint32_t k, in points, in a, in b, in c, in item, in wit) noexcept {
  return lomvuze_decide(m, n, k, points.data(), points.size(), a.data(), a.size(), b.data(), b.size(), c.data(),
                        c.size(), item.data(), item.size(), wit.data(), wit.size());
}

LOMVUZE_CHECKED inline uint32_t draw_challenge(uint32_t m, uint32_t n, uint32_t k, uint32_t l, in items, in quotient, out seed,
                               out challenge) noexcept {
  return lomvuze_draw_challenge(m, n, k, l, items.data(), items.size(), quotient.data(), quotient.size(), seed.data(),
                                seed.size(), challenge.data(), challenge.size());
}

LOMVUZE_CHECKED inline uint32_t draw_positions(uint32_t k, uint32_t l, uint32_t t, uint32_t challenge, in seed, in root,
                               out positions) noexcept {
  return lomvuze_draw_positions(k, l, t, challenge, seed.data(), seed.size(), root.data(), root.size(),
                                positions.data(), positions.size());
}

LOMVUZE_CHECKED inline uint32_t draw_r(uint32_t m, uint32_t n, in root, in x, out r) noexcept {
  return lomvuze_draw_r(m, n, root.data(), root.size(), x.data(), x.size(), r.data(), r.size());
}

LOMVUZE_CHECKED inline uint32_t read_sheet(in sheet, out a, out b, out c, out items, out wits, uint32_t (&sizes)[7]) noexcept {
  return lomvuze_read_sheet(sheet.data(), sheet.size(), a.data(), a.size(), b.data(), b.size(), c.data(), c.size(),
                            items.data(), items.size(), wits.data(), wits.size(), sizes);
}

}  // namespace lomvuze

#endif
