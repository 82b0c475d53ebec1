/* A pool that is used up most of the time: the producer waits for a signal, and does not spin. The consumer
 * flushes and counts that under one lock, so a producer that sees the count change finds something. The 1,024th
 * free alone posts by itself, before its flush: what it posted may have been taken already. */
#include "holders.h"
#include <pthread.h>

enum { SLOTS = 8, COUNT = 4000, EVERY = 1024 };
static fv_pool pool;
static pthread_mutex_t lock = PTHREAD_MUTEX_INITIALIZER;
static pthread_cond_t moved = PTHREAD_COND_INITIALIZER;
static fv_buf queue[SLOTS];
static size_t sent, received, flushed;
static holders held;
static fv_allocator producer, consumer;
static pthread_t thread;

static void *consume(void *argument) {
  fv_allocator *mine = argument;
  for (size_t i = 0; i < COUNT; i++) {
    fv_buf buf;
    pthread_mutex_lock(&lock);
    while (sent == received) pthread_cond_wait(&moved, &lock);
    buf = queue[received++ % SLOTS];
    pthread_mutex_unlock(&lock);
    unlend(&held, buf.at, 512, (uint32_t)i);
    ANSWERS(fv_free(mine, &buf), FV_OK);
    pthread_mutex_lock(&lock);
    ANSWERS(fv_flush(mine), FV_OK);
    flushed++;
    pthread_cond_broadcast(&moved);
    pthread_mutex_unlock(&lock);
  }
  return NULL;
}

/* How often the producer had to wait, and how often it found nothing then. */
typedef struct {
  size_t waits, empty;
} counts;

/* A buffer, once there is one. */
static void alloc_waiting(fv_allocator *mine, fv_buf *buf, counts *counted) {
  for (;;) {
    pthread_mutex_lock(&lock);
    size_t seen = flushed;
    pthread_mutex_unlock(&lock);
    uint32_t answer = fv_alloc(mine, buf, 512);
    if (answer == FV_OK) return;
    ANSWERS(answer, FV_USED_UP);
    /* nobody frees before the first wait, so that there is one however the threads run */
    if (counted->waits++ == 0) CHECK(pthread_create(&thread, NULL, consume, &consumer) == 0);
    pthread_mutex_lock(&lock);
    while (flushed == seen) pthread_cond_wait(&moved, &lock);
    pthread_mutex_unlock(&lock);
    if (fv_collect(mine) == FV_EMPTY) counted->empty++;
  }
}

int main(void) {
  unsigned char *region = new_region(1); /* one chunk: eight slots of 512 bytes */
  counts counted = {0, 0};
  held = new_holders(region, FV_CHUNK);
  fv_pool_init(&pool);
  fv_allocator_init(&producer);
  fv_allocator_init(&consumer);
  ANSWERS(fv_pool_open(&pool, region, FV_CHUNK, 2, 6, 65536), FV_OK);
  ANSWERS(fv_pool_attach(&pool, &producer), FV_OK);
  ANSWERS(fv_pool_attach(&pool, &consumer), FV_OK);
  for (size_t i = 0; i < COUNT; i++) {
    fv_buf buf;
    fv_buf_init(&buf);
    alloc_waiting(&producer, &buf, &counted);
    lend(&held, buf.at, 512, (uint32_t)i);
    pthread_mutex_lock(&lock);
    CHECK(sent - received < SLOTS);
    queue[sent++ % SLOTS] = buf;
    pthread_cond_broadcast(&moved);
    pthread_mutex_unlock(&lock);
  }
  CHECK(pthread_join(thread, NULL) == 0);
  CHECK(fv_allocator_stat(&producer, FV_ALLOCATOR_LENT) == COUNT);
  CHECK(fv_allocator_stat(&consumer, FV_ALLOCATOR_FREED) == COUNT);
  ANSWERS(fv_pool_detach(&pool, &producer), FV_OK);
  ANSWERS(fv_pool_detach(&pool, &consumer), FV_OK);
  ANSWERS(fv_pool_close(&pool), FV_OK);
  CHECK(count_held(&held) == 0 && counted.waits > 0);
  CHECK(counted.empty <= COUNT / EVERY);
  free(held.marks);
  free(region);
  printf("waiting: %d buffers through eight slots, %zu waits, %zu of them for nothing: audit 0\n", COUNT,
         counted.waits, counted.empty);
  return 0;
}
