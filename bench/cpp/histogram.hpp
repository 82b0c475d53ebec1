// How often a number of ticks was seen, and below which number so many parts of all lie. Small numbers have a bucket
// each, and larger ones 64 to a doubling, so that none is off by more than a hundredth.
#pragma once
#include <array>
#include <cmath>
#include <cstddef>
#include <cstdint>

class Histogram {
  static constexpr uint64_t FINE = 64;
  static constexpr size_t BUCKETS = 59 * FINE;

  std::array<uint64_t, BUCKETS> seen{};

  // by how many bits a number is shifted until it is below twice FINE
  static unsigned shift_of(uint64_t ticks) {
    return ticks < 2 * FINE ? 0 : 57 - static_cast<unsigned>(__builtin_clzll(ticks));
  }

  static size_t bucket_of(uint64_t ticks) {
    unsigned shift = shift_of(ticks);
    return shift * FINE + (ticks >> shift);
  }

  static double middle_of(size_t bucket) {
    if (bucket < 2 * FINE) return static_cast<double>(bucket);
    size_t shift = bucket / FINE - 1;
    double width = std::exp2(static_cast<double>(shift));
    return static_cast<double>(FINE + bucket % FINE) * width + (width - 1) / 2;
  }

  uint64_t count() const {
    uint64_t sum = 0;
    for (uint64_t many : seen) sum += many;
    return sum;
  }

public:
  void note(uint64_t ticks) { seen[bucket_of(ticks)]++; }

  void clear() { seen.fill(0); }

  void add(const Histogram &other) {
    for (size_t i = 0; i < BUCKETS; i++) seen[i] += other.seen[i];
  }

  // the least that this part of all don't exceed
  double below(double part) const {
    double wanted = std::ceil(part * static_cast<double>(count()));
    uint64_t found = 0;
    for (size_t i = 0; i < BUCKETS; i++) {
      found += seen[i];
      if (found > 0 && static_cast<double>(found) >= wanted) return middle_of(i);
    }
    return 0;
  }
};
