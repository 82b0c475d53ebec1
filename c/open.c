/* fv_pool_open: each pool gets a number of its own, by which its allocators know its buffers.
 *
 * The proved library takes the number as an argument. No pool has 0, which an object that holds nothing
 * has, and no number comes twice in one program. */
#include "fustrevol.h"
#include <stdatomic.h>

uint32_t fv_pool_open_numbered(fv_pool *pool, unsigned char *region, size_t len, uint32_t allocators,
                               uint32_t bits, uint64_t limit, uint64_t number);

static _Atomic uint64_t pools;

uint32_t fv_pool_open(fv_pool *restrict pool, void *restrict region, size_t len, uint32_t allocators,
                      uint32_t bits, uint64_t limit) {
  return fv_pool_open_numbered(pool, region, len, allocators, bits, limit, ++pools);
}
