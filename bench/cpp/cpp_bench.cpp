// What malloc and free cost in the loops of ../desk_bench: nanoseconds for one buffer of the best turn. Start it with
// LD_PRELOAD for another malloc.
//
//   cpp_bench LENDER WORKLOAD COUNT TURNS
//
// LENDER is malloc, or nothing for the loop alone, or a pool of shapes.hpp, or library where this was built with the C
// library. TURNS turns of COUNT buffers are run, and
// the workload, the nanoseconds and the sum of the sizes are printed.
#include "lenders.hpp"
#include "loops.hpp"
#include "shapes.hpp"
#ifdef LIBRARY
#include "library.hpp"
#endif
#include <algorithm>
#include <chrono>
#include <cstdio>
#include <string>

// As many as a new desk of ../desk_bench has slots for.
constexpr uint64_t COLD = 14000;

struct Turns {
  std::string workload;
  uint64_t count;
  uint64_t turns;
  double best = 1e18;
  uint64_t sum = 0;

  template <class Turn> void time(uint64_t buffers, Turn turn) {
    auto start = std::chrono::steady_clock::now();
    sum = turn();
    std::chrono::duration<double, std::nano> took = std::chrono::steady_clock::now() - start;
    best = std::min(best, took.count() / static_cast<double>(buffers));
  }

  template <class Lender> void cold(Lender &lender) {
    uint64_t buffers = std::min(count, COLD);
    Places<Lender> held;
    held.reserve(buffers);
    time(buffers, [&] { return lend_all(lender, held, buffers); });
    empty(lender, held);
  }

  template <class Lender> bool run() {
    Lender lender;
    Places<Lender> places(PLACES);
    for (uint64_t turn = 0; turn < turns; turn++) {
      if (workload == "pair") {
        time(count, [&] { return pair(lender, count); });
      } else if (workload == "fifo") {
        time(count, [&] { return fifo(lender, places, count); });
      } else if (workload == "replace") {
        time(count, [&] { return replace(lender, places, count); });
      } else if (workload == "cold") {
        cold(lender);
      } else {
        return false;
      }
    }
    return true;
  }

  bool run_by(const std::string &lender) {
    if (lender == "malloc") return run<Malloc>();
    if (lender == "nothing") return run<Nothing>();
    if (lender == "tagged") return run<Boxed<Tagged>>();
    if (lender == "pointer") return run<Boxed<Pointer>>();
    if (lender == "inside") return run<Inside>();
#ifdef LIBRARY
    if (lender == "library") return run<Library>();
#endif
    return false;
  }
};

int main(int count, char **words) {
  if (count != 5) {
    fprintf(stderr, "usage: cpp_bench LENDER WORKLOAD COUNT TURNS\n");
    return 2;
  }
  Turns turns{words[2], std::stoull(words[3]), std::stoull(words[4])};
  if (!turns.run_by(words[1])) {
    fprintf(stderr, "no lender %s, or no workload %s\n", words[1], words[2]);
    return 2;
  }
  printf("%s %.2f %llu\n", words[2], turns.best, static_cast<unsigned long long>(turns.sum));
}
