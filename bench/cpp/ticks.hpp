// The processor's clock: its ticks, and how many nanoseconds one takes. For x86-64 whose ticks are even, on all cores.
#pragma once
#include <cstdint>
#include <time.h>
#include <x86intrin.h>

// What stands before is done then, but for stores on their way to the cache, and what stands behind has not begun.
inline uint64_t ticks() {
  unsigned core;
  asm volatile("" : : : "memory");
  uint64_t now = __rdtscp(&core);
  _mm_lfence();
  asm volatile("" : : : "memory");
  return now;
}

// Compares the ticks with the system's clock, from where it is made on.
class Scale {
  // the longer, the more exact
  static constexpr double NANOS = 20e6;

  double nanos = monotonic();
  uint64_t first = ticks();

  static double monotonic() {
    timespec now;
    clock_gettime(CLOCK_MONOTONIC, &now);
    return static_cast<double>(now.tv_sec) * 1e9 + static_cast<double>(now.tv_nsec);
  }

public:
  double nanos_a_tick() const {
    double took = monotonic() - nanos;
    while (took < NANOS) took = monotonic() - nanos;
    return took / static_cast<double>(ticks() - first);
  }
};
