// What it costs many threads to lend buffers that others free: nanoseconds for one buffer of a thread, in the best
// turn. Start it with LD_PRELOAD for another malloc.
//
//   crowd_bench WORKLOAD COUNT TURNS LENDER
//
// asked.hpp says what the words are. LENDER is malloc, or nothing for the hand-over alone; mempool or bulk where this
// was built with DPDK; library, or bursts that are filled by one call, where with the C library. A turn takes from the
// first thread's start to the last one's end. Where threads share cores, its time is divided by how many share one.
// Prints the workload, the nanoseconds and the sum of all sizes; of the C library, then how many buffers were not to be
// had, and how many chunks were drawn of how many.
#include "asked.hpp"
#ifdef LIBRARY
#include "library.hpp"
#endif
#ifdef MEMPOOL
#include "mempool.hpp"
#endif

// how often a thread tries it again where the pool is used up
constexpr uint64_t PATIENCE = 100;

template <class Crew> void print_pool(const Crew &) {}

#ifdef LIBRARY
template <class Packing, class Sizes> void print_pool(const Crew<Library, Packing, Sizes> &crew) {
  unsigned long long starved = 0, drawn = 0;
  for (auto &worker : crew.workers) {
    starved += worker.lender.starved();
    drawn += worker.lender.chunks();
  }
  printf(" %llu %llu %d", starved, drawn, FV_MOST_CHUNKS);
}
#endif

template <class Lender, class Packing, class Sizes> int measured(const Asked &asked) {
  Crew<Lender, Packing, Sizes> crew;
  asked.gather(crew);
  crew.run(asked.count, asked.turns);
  double share = std::min(1.0, static_cast<double>(cores()) / static_cast<double>(asked.threads));
  double nanos = crew.of_all() * share / static_cast<double>(asked.count);
  printf("%s %.2f %llu", asked.workload.c_str(), nanos, static_cast<unsigned long long>(crew.sum()));
  print_pool(crew);
  printf("\n");
  return 0;
}

template <class Sizes> int by_lender(const Asked &asked) {
  const std::string &lender = asked.lender;
  if (lender == "malloc") return measured<Malloc, InBlocks<Malloc>, Sizes>(asked);
  if (lender == "nothing") return measured<Nothing, InBlocks<Nothing>, Sizes>(asked);
#ifdef MEMPOOL
  if (lender == "mempool" || lender == "bulk") Elements::open(Sizes::LARGEST, asked.threads, UNDER_WAY);
  if (lender == "mempool") return measured<Mempool, InBlocks<Mempool>, Sizes>(asked);
  if (lender == "bulk") return measured<Mempool, InBulk, Sizes>(asked);
#endif
#ifdef LIBRARY
  LibraryPool::threads = static_cast<uint32_t>(asked.threads);
  Library::patience = PATIENCE;
  if (lender == "library") return measured<Library, InBlocks<Library>, Sizes>(asked);
  if (lender == "bursts") return measured<Library, InFilledBursts<Sizes::LARGEST>, Sizes>(asked);
#endif
  Asked::unknown("lender", lender);
}

int main(int count, char **words) {
  if (count != 5) return usage("crowd_bench");
  Asked asked(words);
  return with_sizes(asked, [&](auto sizes) { return by_lender<decltype(sizes)>(asked); });
}
