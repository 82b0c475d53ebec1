// A lender whose calls are timed one by one. Writing a buffer's first byte, and noting a time, are outside of them.
#pragma once
#include "histogram.hpp"
#include "lenders.hpp"
#include "ticks.hpp"
#include <memory>
#include <utility>

// where a buffer's bytes lie
inline uint8_t *bytes_of(uint8_t *it) { return it; }

template <class Inner> class Timed {
  struct Times {
    Histogram lends;
    Histogram gives;
  };

  std::unique_ptr<Times> times = std::make_unique<Times>();

public:
  using Lent = typename Inner::Lent;

  Inner inner{};

  Lent lend(size_t size) {
    uint64_t start = ticks();
    Lent it = inner.take(size);
    uint64_t end = ticks();
    times->lends.note(end - start);
    touch(bytes_of(it));
    return it;
  }
  template <class It> void give(It &&it) {
    uint64_t start = ticks();
    inner.give(std::forward<It>(it));
    uint64_t end = ticks();
    times->gives.note(end - start);
  }

  const Histogram &lends() const { return times->lends; }
  const Histogram &gives() const { return times->gives; }
  void forget() { *times = Times(); }
};

// The first turn is not noted, but where it is the only one: memory is new in it.
template <class Inner> void before_turn(Timed<Inner> &timed, uint64_t turn) {
  before_turn(timed.inner, turn);
  if (turn == 1) timed.forget();
}
