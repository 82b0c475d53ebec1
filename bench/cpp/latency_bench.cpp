// How long single calls take that lend or free a buffer, where others free what a thread lends.
// Start it with LD_PRELOAD for another malloc.
//
//   latency_bench WORKLOAD COUNT TURNS LENDER
//
// asked.hpp says what the words are. LENDER is malloc, mempool, where this was built with DPDK, or library, where with
// the C library. With nothing a call is empty, so that what is left is to read the clock. Prints the workload; the
// nanoseconds that 50, 99 and 99.9 of a hundred calls that lend don't exceed; the same of calls that free; and the sum
// of all sizes. Nothing is subtracted.
#include "asked.hpp"
#include "timed.hpp"
#ifdef LIBRARY
#include "library.hpp"
inline uint8_t *bytes_of(const Library::Lent &it) { return it.buf.at; }
#endif
#ifdef MEMPOOL
#include "mempool.hpp"
#endif

static void print(const Histogram &seen, double nanos_a_tick) {
  for (double part : {0.5, 0.99, 0.999}) printf(" %.1f", seen.below(part) * nanos_a_tick);
}

template <class Lender, class Sizes> int measured(const Asked &asked) {
  Scale scale;
  Crew<Timed<Lender>, InBlocks<Timed<Lender>>, Sizes> crew;
  asked.gather(crew);
  crew.run(asked.count, asked.turns);
  Histogram lends, gives;
  for (auto &worker : crew.workers) {
    lends.add(worker.lender.lends());
    gives.add(worker.lender.gives());
  }
  double nanos_a_tick = scale.nanos_a_tick();
  printf("%s", asked.workload.c_str());
  print(lends, nanos_a_tick);
  print(gives, nanos_a_tick);
  printf(" %llu\n", static_cast<unsigned long long>(crew.sum()));
  return 0;
}

template <class Sizes> int by_lender(const Asked &asked) {
  const std::string &lender = asked.lender;
  if (lender == "malloc") return measured<Malloc, Sizes>(asked);
  if (lender == "nothing") return measured<Nothing, Sizes>(asked);
#ifdef MEMPOOL
  if (lender == "mempool") {
    Elements::open(Sizes::LARGEST, asked.threads, UNDER_WAY);
    return measured<Mempool, Sizes>(asked);
  }
#endif
#ifdef LIBRARY
  LibraryPool::threads = static_cast<uint32_t>(asked.threads);
  if (lender == "library") return measured<Library, Sizes>(asked);
#endif
  Asked::unknown("lender", lender);
}

int main(int count, char **words) {
  if (count != 5) return usage("latency_bench");
  Asked asked(words);
  return with_sizes(asked, [&](auto sizes) { return by_lender<decltype(sizes)>(asked); });
}
