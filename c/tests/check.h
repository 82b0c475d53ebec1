/* What all tests share: a check that stops the program, and a region to open pools over. */
#ifndef CHECK_H
#define CHECK_H
#include "fustrevol.h"
#include <stdio.h>
#include <stdlib.h>

#define CHECK(condition)                                                                                   \
  do {                                                                                                     \
    if (!(condition)) {                                                                                    \
      fprintf(stderr, "%s:%d: not so: %s\n", __FILE__, __LINE__, #condition);                              \
      exit(1);                                                                                             \
    }                                                                                                      \
  } while (0)

/* Whether a call answers just this. */
#define ANSWERS(call, expected)                                                                            \
  do {                                                                                                     \
    uint32_t got_ = (call);                                                                                \
    if (got_ != (uint32_t)(expected)) {                                                                    \
      fprintf(stderr, "%s:%d: %s: %u (%s), and not %s\n", __FILE__, __LINE__, #call, (unsigned)got_,       \
              fv_strerror(got_), #expected);                                                               \
      exit(1);                                                                                             \
    }                                                                                                      \
  } while (0)

static inline unsigned char *new_region(size_t chunks) {
  unsigned char *region = aligned_alloc(FV_CHUNK, chunks * FV_CHUNK);
  CHECK(region != NULL);
  for (size_t i = 0; i < chunks * FV_CHUNK; i++) region[i] = 0xA5;
  return region;
}

/* The size of the class that a request takes, by the list in fustrevol.h. */
static inline size_t class_size(size_t size) {
  static const size_t sizes[] = {16, 32, 48, 64, 80, 96, 112, 128, 160, 192, 224, 256, 320, 384, 448, 512};
  size_t k = 0;
  while (sizes[k] < size) k++;
  return sizes[k];
}

/* Numbers that look random, the same in each run of a seed (xorshift64*). */
static inline uint64_t next_number(uint64_t *state) {
  *state ^= *state >> 12;
  *state ^= *state << 25;
  *state ^= *state >> 27;
  return *state * 2685821657736338717u;
}

static inline size_t below(uint64_t *state, size_t bound) {
  return (size_t)(next_number(state) >> 33) % bound;
}
#endif
