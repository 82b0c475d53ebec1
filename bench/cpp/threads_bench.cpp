// What malloc and free cost in the loops of ../jobs_bench, with threads: nanoseconds for one buffer of a thread, in the
// best turn. Start it with LD_PRELOAD for another malloc.
//
//   threads_bench WORKLOAD COUNT TURNS LENDER
//
// LENDER is malloc, nothing for the loop and the hand-over alone, one of the pools of pools.hpp (boxes or slots), that
// of magazines.hpp (magazines), of rings.hpp (rings) or of parcels.hpp (parcels); where this was built with the C
// library, that, with blocks of buffers (library) or in bursts (bursts); where with DPDK, its rte_mempool, element by
// element (mempool) or a block by one call (bulk). Each thread runs TURNS turns of COUNT buffers, and the workload, the
// nanoseconds and the sum of the sizes of all threads are printed.
#include "crew.hpp"
#include "magazines.hpp"
#include "parcels.hpp"
#include "pools.hpp"
#include "rings.hpp"
#ifdef LIBRARY
#include "library.hpp"
#endif
#ifdef MEMPOOL
#include "mempool.hpp"
#endif
#include <cstdio>
#include <string>

// how many buffers are under way at most: between two threads, and from each to the next of a ring
constexpr size_t WINDOW = 4096;
constexpr size_t RING_WINDOW = 1024;

template <class Crew> bool gather(Crew &crew, const std::string &workload) {
  if (workload == "prodcons") {
    crew.pair(2, WINDOW);
  } else if (workload == "ring") {
    crew.ring(4, RING_WINDOW);
  } else if (workload.size() == 8 && workload.rfind("replace", 0) == 0 && '1' <= workload[7] && workload[7] <= '4') {
    crew.add(static_cast<size_t>(workload[7] - '0'));
  } else {
    return false;
  }
  return true;
}

template <class Lender, class Packing = InBlocks<Lender>>
int measured(const std::string &workload, uint64_t count, uint64_t turns) {
  Crew<Lender, Packing> crew;
  if (!gather(crew, workload)) {
    fprintf(stderr, "no workload %s\n", workload.c_str());
    return 2;
  }
  crew.run(count, turns);
  double nanos = crew.of_slowest() / static_cast<double>(count);
  printf("%s %.2f %llu\n", workload.c_str(), nanos, static_cast<unsigned long long>(crew.sum()));
  return 0;
}

int main(int count, char **words) {
  if (count != 5) {
    fprintf(stderr, "usage: threads_bench WORKLOAD COUNT TURNS LENDER\n");
    return 2;
  }
  std::string workload = words[1], lender = words[4];
  uint64_t buffers = std::stoull(words[2]), turns = std::stoull(words[3]);
  if (lender == "malloc") return measured<Malloc>(workload, buffers, turns);
  if (lender == "nothing") return measured<Nothing>(workload, buffers, turns);
  if (lender == "boxes") return measured<Pooled<InBoxes>>(workload, buffers, turns);
  if (lender == "slots") return measured<Pooled<InSlots>>(workload, buffers, turns);
  if (lender == "magazines") return measured<Magazined>(workload, buffers, turns);
  if (lender == "rings") return measured<Ringed>(workload, buffers, turns);
  if (lender == "parcels") return measured<Parceled, InParcels>(workload, buffers, turns);
#ifdef LIBRARY
  if (lender == "library") return measured<Library>(workload, buffers, turns);
  if (lender == "bursts") return measured<Library, InBursts>(workload, buffers, turns);
#endif
#ifdef MEMPOOL
  if (lender == "mempool" || lender == "bulk") Elements::open(Drawn::LARGEST, 4, 4 * RING_WINDOW);
  if (lender == "mempool") return measured<Mempool>(workload, buffers, turns);
  if (lender == "bulk") return measured<Mempool, InBulk>(workload, buffers, turns);
#endif
  fprintf(stderr, "no lender %s\n", lender.c_str());
  return 2;
}
