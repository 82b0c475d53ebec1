/* Who holds which bytes of a region, on any thread: each step of 16 bytes is marked while a buffer with it
 * is lent.
 *
 * A buffer is filled with a pattern of its own when it is lent, and the pattern is looked at before it is
 * freed. The marks are sequentially consistent atomics, so that a race detector sees the order in which a
 * slot's holders follow one another. */
#ifndef HOLDERS_H
#define HOLDERS_H
#include "check.h"
#include <stdatomic.h>

typedef struct {
  unsigned char *region;
  size_t len;
  atomic_uchar *marks;
} holders;

static inline holders new_holders(unsigned char *region, size_t len) {
  holders h = {region, len, calloc(len / 16, sizeof(atomic_uchar))};
  CHECK(h.marks != NULL);
  return h;
}

static inline unsigned char pattern(uint32_t seed, size_t i) {
  return (unsigned char)(seed * 31u + i * 7u + (i >> 8));
}

static inline void fill(unsigned char *at, size_t size, uint32_t seed) {
  for (size_t i = 0; i < size; i++) at[i] = pattern(seed, i);
}

static inline void look(const unsigned char *at, size_t size, uint32_t seed) {
  for (size_t i = 0; i < size; i++) CHECK(at[i] == pattern(seed, i));
}

/* Bytes were lent: they are of the region, and nobody else has one of them. */
static inline void lend(holders *h, unsigned char *at, size_t size, uint32_t seed) {
  CHECK(at >= h->region && at + size <= h->region + h->len && (size_t)(at - h->region) % 16 == 0);
  size_t first = (size_t)(at - h->region) / 16;
  for (size_t k = first; k < first + size / 16; k++) CHECK(atomic_exchange(&h->marks[k], 1) == 0);
  fill(at, size, seed);
}

/* Bytes are about to be freed: they are as their holder left them. */
static inline void unlend(holders *h, unsigned char *at, size_t size, uint32_t seed) {
  look(at, size, seed);
  size_t first = (size_t)(at - h->region) / 16;
  for (size_t k = first; k < first + size / 16; k++) CHECK(atomic_exchange(&h->marks[k], 0) == 1);
}

static inline size_t count_held(holders *h) {
  size_t held = 0;
  for (size_t k = 0; k < h->len / 16; k++) held += atomic_load(&h->marks[k]);
  return held;
}
#endif
