// A weight for OpenFst that compares ranked counts.
#pragma once

#include <fst/arc.h>
#include <fst/util.h>
#include <fst/weight.h>

#include <cstddef>
#include <cstdint>
#include <iostream>
#include <string>

namespace ranked {

// Six counts in ranked order, the highest ranked first, and the pair count: 16 bits each, from the top of `high` down; the
// lowest 16 bits of `low` are unused. No count passes 48,000, so adding the numbers adds the counts.
struct Weight {
  using ReverseWeight = Weight;

  uint64_t high;
  uint64_t low;

  static constexpr Weight One() { return {0, 0}; }
  static constexpr Weight Zero() { return {~uint64_t{0}, ~uint64_t{0}}; }
  static constexpr Weight NoWeight() { return {~uint64_t{0}, 0}; }
  // Marks of the machine at that place of the ranking; at place 6 pairs.
  static constexpr Weight Of(uint64_t marks, int place) {
    const uint64_t field = marks << 16 * (3 - place % 4);
    return place < 4 ? Weight{field, 0} : Weight{0, field};
  }
  static const std::string &Type() {
    static const std::string type = "ranked";
    return type;
  }
  static constexpr uint64_t Properties() {
    return fst::kSemiring | fst::kCommutative | fst::kPath | fst::kIdempotent;
  }

  bool Member() const { return high != ~uint64_t{0} || low != 0; }
  uint16_t Count(int place) const { return (place < 4 ? high : low) >> 16 * (3 - place % 4); }
  Weight Reverse() const { return *this; }
  Weight Quantize(float = fst::kDelta) const { return *this; }
  size_t Hash() const { return high * 31 + low; }
  std::ostream &Write(std::ostream &out) const {
    fst::WriteType(out, high);
    return fst::WriteType(out, low);
  }
  std::istream &Read(std::istream &in) {
    fst::ReadType(in, &high);
    return fst::ReadType(in, &low);
  }
};

inline bool operator==(const Weight &a, const Weight &b) { return a.high == b.high && a.low == b.low; }
inline bool operator!=(const Weight &a, const Weight &b) { return !(a == b); }
inline bool operator<(const Weight &a, const Weight &b) { return a.high != b.high ? a.high < b.high : a.low < b.low; }
inline bool ApproxEqual(const Weight &a, const Weight &b, float = fst::kDelta) { return a == b; }
inline std::ostream &operator<<(std::ostream &out, const Weight &a) { return out << a.high << ',' << a.low; }
inline std::istream &operator>>(std::istream &in, Weight &a) { return in >> a.high >> a.low; }

// The better one.
inline Weight Plus(const Weight &a, const Weight &b) { return b < a ? b : a; }
// The counts added.
inline Weight Times(const Weight &a, const Weight &b) {
  if (a.high == ~uint64_t{0} || b.high == ~uint64_t{0}) return Weight::Zero();
  return {a.high + b.high, a.low + b.low};
}
// The library wants it for what is not used here.
inline Weight Divide(const Weight &a, const Weight &b, fst::DivideType = fst::DIVIDE_ANY) {
  return {a.high - b.high, a.low - b.low};
}

// As the library's NaturalLess, by one comparison.
struct Less {
  using Weight = ranked::Weight;
  bool operator()(const Weight &a, const Weight &b) const { return a < b; }
};

using Arc = fst::ArcTpl<Weight>;

}  // namespace ranked
