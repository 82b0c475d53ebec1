// What is resident of a program that has lent many buffers. Start it with LD_PRELOAD for another malloc.
//
//   memory_bench SIZE COUNT LENDER
//
// COUNT buffers of SIZE bytes are lent, freed and lent again, and each byte is written. LENDER is malloc, or library,
// where this was built with the C library. Prints SIZE and the bytes that are resident then. Two runs with different
// COUNT tell what one buffer takes.
#include "lenders.hpp"
#include <cstdio>
#include <cstring>
#include <string>
#include <unistd.h>
#ifdef LIBRARY
#include "library.hpp"
inline uint8_t *bytes_of(const Library::Lent &it) { return it.buf.at; }
#endif
inline uint8_t *bytes_of(uint8_t *it) { return it; }

static size_t resident() {
  FILE *file = fopen("/proc/self/statm", "r");
  size_t pages = 0;
  if (!file || fscanf(file, "%*s %zu", &pages) != 1) abort();
  fclose(file);
  return pages * static_cast<size_t>(sysconf(_SC_PAGESIZE));
}

template <class Lender> void lend_all(Lender &lender, std::vector<typename Lender::Lent> &lent, size_t size) {
  for (auto &it : lent) {
    it = lender.take(size);
    if (!bytes_of(it)) abort();
    memset(bytes_of(it), 7, size);
  }
}

template <class Lender> int measured(size_t size, size_t count) {
  Lender lender;
  std::vector<typename Lender::Lent> lent(count);
  lend_all(lender, lent, size);
  for (auto &it : lent) lender.give(it);
  lend_all(lender, lent, size);
  printf("%zu %zu\n", size, resident() - count * sizeof(typename Lender::Lent));
  for (auto &it : lent) lender.give(it);
  return 0;
}

int main(int count, char **words) {
  if (count != 4) {
    fprintf(stderr, "usage: memory_bench SIZE COUNT LENDER\n");
    return 2;
  }
  size_t size = std::stoul(words[1]), many = std::stoul(words[2]);
  if (!strcmp(words[3], "malloc")) return measured<Malloc>(size, many);
#ifdef LIBRARY
  LibraryPool::threads = 1;
  if (!strcmp(words[3], "library")) return measured<Library>(size, many);
#endif
  fprintf(stderr, "no lender %s\n", words[3]);
  return 2;
}
