/* How much is taken at a time: a look ends behind 1,024 buffers. Where no slot is left and the stock is empty,
 * fv_alloc looks on. */
#include "check.h"

enum { CHUNKS = 17, SMALL = 16, LARGE = 512, BATCH = 1024, BATCHES = 3, MOST_LARGE = 64 };

static fv_buf small[BATCHES * BATCH];
static fv_buf large[MOST_LARGE];

static unsigned long long taken(const fv_allocator *owner) {
  return fv_allocator_stat(owner, FV_ALLOCATOR_TAKEN);
}

static void lend(fv_allocator *owner, fv_buf *bufs, size_t count) {
  for (size_t i = 0; i < count; i++) {
    fv_buf_init(&bufs[i]);
    ANSWERS(fv_alloc(owner, &bufs[i], SMALL), FV_OK);
  }
}

/* Each 1,024th is posted, so that they go in as many batches. */
static void give_back(fv_allocator *other, fv_buf *bufs, size_t count) {
  for (size_t i = 0; i < count; i++) ANSWERS(fv_free(other, &bufs[i]), FV_OK);
}

/* Each batch is as long as a look goes, so each look takes one. */
static void batches_come_one_by_one(fv_allocator *owner, fv_allocator *other) {
  lend(owner, small, BATCHES * BATCH);
  give_back(other, small, BATCHES * BATCH);
  for (size_t i = 0; i < BATCHES; i++) {
    CHECK(taken(owner) == i);
    ANSWERS(fv_collect(owner), FV_OK);
  }
  CHECK(taken(owner) == BATCHES);
  ANSWERS(fv_collect(owner), FV_EMPTY);
}

/* All large slots are lent. One comes home behind a batch of small ones. */
static void a_slot_behind_a_batch_is_found(fv_allocator *owner, fv_allocator *other) {
  size_t count = 0;
  while (count < MOST_LARGE) {
    fv_buf_init(&large[count]);
    if (fv_alloc(owner, &large[count], LARGE) != FV_OK) break;
    count++;
  }
  CHECK(count > 0 && count < MOST_LARGE);
  ANSWERS(fv_alloc(owner, &large[count], LARGE), FV_USED_UP);
  lend(owner, small, BATCH);
  give_back(other, small, BATCH);
  ANSWERS(fv_free(other, &large[0]), FV_OK);
  ANSWERS(fv_flush(other), FV_OK);
  ANSWERS(fv_alloc(owner, &large[0], LARGE), FV_OK);
  for (size_t i = 0; i < count; i++) ANSWERS(fv_free(owner, &large[i]), FV_OK);
}

int main(void) {
  unsigned char *region = new_region(CHUNKS);
  fv_pool pool;
  static fv_allocator owner, other;
  fv_pool_init(&pool);
  fv_allocator_init(&owner);
  fv_allocator_init(&other);
  ANSWERS(fv_pool_open(&pool, region, (size_t)CHUNKS * FV_CHUNK, 2, 6, 65536), FV_OK);
  ANSWERS(fv_pool_attach(&pool, &owner), FV_OK);
  ANSWERS(fv_pool_attach(&pool, &other), FV_OK);

  batches_come_one_by_one(&owner, &other);
  a_slot_behind_a_batch_is_found(&owner, &other);

  ANSWERS(fv_pool_detach(&pool, &other), FV_OK);
  ANSWERS(fv_pool_detach(&pool, &owner), FV_OK);
  ANSWERS(fv_pool_close(&pool), FV_OK);
  free(region);
  printf("taking: no further batch behind 1,024 buffers, and on where the stock is empty\n");
  return 0;
}
