// What a program with many threads is asked to run, and with what it is called for that.
#pragma once
#include "crew.hpp"
#include <cstdio>
#include <string>

// how many buffers are under way at most, in all
constexpr size_t UNDER_WAY = 4096;

// `WORKLOAD COUNT TURNS LENDER`. WORKLOAD is prodcons or ring, the number of threads, a slash and the size: as
// `ring4/64` or `ring4/512`, or `ring4/mixed` for sizes by lot. Each thread has COUNT buffers in each of TURNS turns.
struct Asked {
  std::string workload, loop, size, lender;
  size_t threads;
  uint64_t count, turns;

  explicit Asked(char **words)
      : workload(words[1]), lender(words[4]), count(std::stoull(words[2])), turns(std::stoull(words[3])) {
    size_t digits = workload.find_first_of("0123456789"), slash = workload.find('/');
    if (digits == std::string::npos || slash == std::string::npos) unknown("workload", workload);
    loop = workload.substr(0, digits);
    threads = std::stoul(workload.substr(digits));
    size = workload.substr(slash + 1);
  }

  [[noreturn]] static void unknown(const char *what, const std::string &word) {
    fprintf(stderr, "no %s %s\n", what, word.c_str());
    exit(2);
  }

  template <class Crew> void gather(Crew &crew) const {
    auto window = [](size_t ways) { return std::max(BLOCK, UNDER_WAY / ways); };
    if (loop == "prodcons") return crew.pair(threads, window(threads / 2));
    if (loop == "ring") return crew.ring(threads, window(threads));
    unknown("loop", loop);
  }
};

inline int usage(const char *program) {
  fprintf(stderr, "usage: %s WORKLOAD COUNT TURNS LENDER\n", program);
  return 2;
}

// calls this with the sizes that are asked for
template <class Measure> int with_sizes(const Asked &asked, Measure measure) {
  if (asked.size == "64") return measure(Fixed<64>());
  if (asked.size == "512") return measure(Fixed<512>());
  if (asked.size == "mixed") return measure(Drawn());
  Asked::unknown("size", asked.size);
}
