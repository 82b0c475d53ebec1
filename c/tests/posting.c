/* When what is freed for another allocator is posted: above the limit in bytes, and at the latest with the 1,024th
 * buffer, in single buffers and in bursts. */
#include "check.h"

enum { CHUNKS = 24, SIZE = 16, EVERY = 1024, PACKED = 64, LARGE = 512, LIMIT = 65536 };

static unsigned long long posted(const fv_allocator *other) {
  return fv_allocator_stat(other, FV_ALLOCATOR_POSTED);
}

static void free_one(fv_allocator *owner, fv_allocator *other, size_t size) {
  fv_buf buf;
  fv_buf_init(&buf);
  ANSWERS(fv_alloc(owner, &buf, size), FV_OK);
  ANSWERS(fv_free(other, &buf), FV_OK);
}

/* All that was posted is at home, so the next round begins with nothing cached. */
static void settle(fv_allocator *owner, fv_allocator *other) {
  CHECK(fv_allocator_stat(other, FV_ALLOCATOR_CACHED) == 0);
  ANSWERS(fv_collect(owner), FV_OK);
}

int main(void) {
  unsigned char *region = new_region(CHUNKS);
  fv_pool pool;
  static fv_allocator owner, other;
  fv_pool_init(&pool);
  fv_allocator_init(&owner);
  fv_allocator_init(&other);
  ANSWERS(fv_pool_open(&pool, region, (size_t)CHUNKS * FV_CHUNK, 2, 6, LIMIT), FV_OK);
  ANSWERS(fv_pool_attach(&pool, &owner), FV_OK);
  ANSWERS(fv_pool_attach(&pool, &other), FV_OK);

  for (size_t i = 1; i <= EVERY; i++) {
    free_one(&owner, &other, SIZE);
    CHECK(posted(&other) == i / EVERY);
  }
  settle(&owner, &other);

  for (size_t i = 1; i <= EVERY / PACKED; i++) {
    fv_burst burst;
    fv_burst_init(&burst);
    ANSWERS(fv_burst_open(&owner, &burst, PACKED), FV_OK);
    ANSWERS(fv_burst_fill(&owner, &burst, SIZE, PACKED), FV_OK);
    ANSWERS(fv_burst_free(&other, &burst), FV_OK);
    CHECK(posted(&other) == 1 + i / (EVERY / PACKED));
  }
  settle(&owner, &other);

  /* Large ones are above the limit long before. */
  for (size_t i = 1; i <= LIMIT / LARGE + 1; i++) {
    free_one(&owner, &other, LARGE);
    CHECK(posted(&other) == 2 + i / (LIMIT / LARGE + 1));
  }
  settle(&owner, &other);

  ANSWERS(fv_pool_detach(&pool, &other), FV_OK);
  ANSWERS(fv_pool_detach(&pool, &owner), FV_OK);
  ANSWERS(fv_pool_close(&pool), FV_OK);
  free(region);
  printf("posting: above the limit, and with each 1,024th buffer\n");
  return 0;
}
