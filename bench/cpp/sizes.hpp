// How large the buffers are that a loop lends.
#pragma once
#include "pcg32.hpp"

// each by lot
struct Drawn {
  static constexpr uint32_t LARGEST = 512;
  static uint32_t next(Pcg32 &random) { return 1 + random.next() % LARGEST; }
};

// all of one size
template <uint32_t SIZE> struct Fixed {
  static constexpr uint32_t LARGEST = SIZE;
  static uint32_t next(Pcg32 &) { return SIZE; }
};
