/* An allocator that does not look into its inbox: what it cannot be sent stays cached with the sender, holds back
 * nothing that goes to others, and comes later. */
#include "check.h"

enum { CHUNKS = 16, BUFFERS = 64, BATCHES = 16 };

int main(void) {
  unsigned char *region = new_region(CHUNKS);
  fv_pool pool;
  static fv_allocator owner, other, third;
  fv_buf bufs[BUFFERS];
  fv_pool_init(&pool);
  fv_allocator_init(&owner);
  fv_allocator_init(&other);
  fv_allocator_init(&third);
  ANSWERS(fv_pool_open(&pool, region, (size_t)CHUNKS * FV_CHUNK, 3, 6, 65536), FV_OK);
  ANSWERS(fv_pool_attach(&pool, &owner), FV_OK);
  ANSWERS(fv_pool_attach(&pool, &other), FV_OK);
  ANSWERS(fv_pool_attach(&pool, &third), FV_OK);
  for (size_t i = 0; i < BUFFERS; i++) {
    fv_buf_init(&bufs[i]);
    ANSWERS(fv_alloc(&owner, &bufs[i], 64), FV_OK);
  }
  /* A flush after each buffer makes a batch of each, and the inbox has room for 16 of one sender. */
  for (size_t i = 0; i < BUFFERS; i++) {
    ANSWERS(fv_free(&other, &bufs[i]), FV_OK);
    ANSWERS(fv_flush(&other), FV_OK);
    size_t posted = i < BATCHES ? i + 1 : BATCHES;
    CHECK(fv_allocator_stat(&other, FV_ALLOCATOR_POSTED) == posted);
    CHECK(fv_allocator_stat(&other, FV_ALLOCATOR_CACHED) == i + 1 - posted);
  }
  /* The owner that has no room comes first in the cache. Its batch is refused, and that of the third goes. */
  fv_buf one;
  fv_buf_init(&one);
  ANSWERS(fv_alloc(&third, &one, 64), FV_OK);
  ANSWERS(fv_free(&other, &one), FV_OK);
  ANSWERS(fv_flush(&other), FV_OK);
  CHECK(fv_allocator_stat(&other, FV_ALLOCATOR_CACHED) == BUFFERS - BATCHES);
  ANSWERS(fv_collect(&third), FV_OK);
  CHECK(fv_allocator_stat(&third, FV_ALLOCATOR_HOME) == FV_CHUNK / 64);

  ANSWERS(fv_collect(&owner), FV_OK);
  CHECK(fv_allocator_stat(&owner, FV_ALLOCATOR_TAKEN) == BATCHES &&
        fv_allocator_stat(&owner, FV_ALLOCATOR_HOME) == BATCHES);
  ANSWERS(fv_collect(&owner), FV_EMPTY);
  ANSWERS(fv_flush(&other), FV_OK); /* now there is room */
  CHECK(fv_allocator_stat(&other, FV_ALLOCATOR_CACHED) == 0 &&
        fv_allocator_stat(&other, FV_ALLOCATOR_CACHED_BYTES) == 0);
  ANSWERS(fv_collect(&owner), FV_OK);
  CHECK(fv_allocator_stat(&owner, FV_ALLOCATOR_HOME) == BUFFERS);

  /* And where the sender is detached with a full cache, the close of the pool brings all home. */
  for (size_t i = 0; i < BUFFERS; i++) ANSWERS(fv_alloc(&owner, &bufs[i], 64), FV_OK);
  for (size_t i = 0; i < BUFFERS; i++) {
    ANSWERS(fv_free(&other, &bufs[i]), FV_OK);
    ANSWERS(fv_flush(&other), FV_OK);
  }
  /* The last batch that was taken keeps its place until the next one is: room for 15 more. */
  CHECK(fv_allocator_stat(&other, FV_ALLOCATOR_CACHED) == BUFFERS - (BATCHES - 1));
  ANSWERS(fv_pool_detach(&pool, &other), FV_OK);
  ANSWERS(fv_pool_detach(&pool, &owner), FV_OK);
  ANSWERS(fv_pool_detach(&pool, &third), FV_OK);
  ANSWERS(fv_pool_close(&pool), FV_OK);
  free(region);
  printf("full_inbox: what an inbox has no room for waits with the sender: audit 0\n");
  return 0;
}
