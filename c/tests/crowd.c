/* Threads that do what they like: each lends, fills, swaps with others, looks, frees, flushes, hands its
 * allocator to another thread, and takes up the allocator that another one gave back. crowd [THREADS]
 * [STEPS OF EACH] [BITS] */
#include "holders.h"
#include <pthread.h>
#include <sched.h>

enum { CHUNKS = 256, OWN = 24, SHARED = 32, BURST = 8 };

typedef struct {
  fv_buf buf;
  uint32_t seed;
} lent_buf;

/* Where threads leave something for others: a buffer, a burst, an allocator. */
typedef struct {
  pthread_mutex_t lock;
  lent_buf buf;
  fv_burst burst;
  uint32_t seed;
} swap;

static fv_pool pool;
static pthread_mutex_t pool_lock = PTHREAD_MUTEX_INITIALIZER, hand_over = PTHREAD_MUTEX_INITIALIZER;
static fv_allocator handed; /* attached, and handed from thread to thread by copying it */
static holders held;
static swap swaps[SHARED];
static size_t steps;
static atomic_ullong reattached, refused;

typedef struct {
  fv_allocator mine;
  lent_buf own[OWN];
  uint64_t state;
} worker;

static void lend_one(worker *w, lent_buf *place) {
  size_t size = below(&w->state, FV_LARGEST + 1);
  if (fv_buf_capacity(&place->buf) > 0) return;
  uint32_t answer = fv_alloc(&w->mine, &place->buf, size);
  if (answer != FV_OK) {
    CHECK(answer == FV_USED_UP || answer == FV_NO_CHUNK);
    atomic_fetch_add(&refused, 1);
    return;
  }
  CHECK(fv_buf_capacity(&place->buf) == class_size(size));
  place->seed = (uint32_t)next_number(&w->state);
  lend(&held, place->buf.at, fv_buf_capacity(&place->buf), place->seed);
}

static void free_one(worker *w, lent_buf *place) {
  if (fv_buf_capacity(&place->buf) == 0) {
    ANSWERS(fv_free(&w->mine, &place->buf), FV_EMPTY);
    return;
  }
  unlend(&held, place->buf.at, fv_buf_capacity(&place->buf), place->seed);
  ANSWERS(fv_free(&w->mine, &place->buf), FV_OK);
}

static void swap_buffers(worker *w, lent_buf *place) {
  swap *s = &swaps[below(&w->state, SHARED)];
  pthread_mutex_lock(&s->lock);
  lent_buf kept = s->buf;
  s->buf = *place;
  *place = kept;
  pthread_mutex_unlock(&s->lock);
}

/* What lies in a swap's burst is freed by whoever comes; where there is none, one is left there. */
static void swap_burst(worker *w) {
  swap *s = &swaps[below(&w->state, SHARED)];
  fv_span span = {0};
  pthread_mutex_lock(&s->lock);
  size_t there = fv_burst_len(&s->burst);
  for (size_t i = 0; i < there; i++) {
    ANSWERS(fv_burst_at(&s->burst, &span, i), FV_OK);
    unlend(&held, span.at, span.len, s->seed + (uint32_t)i);
  }
  if (there > 0) {
    ANSWERS(fv_burst_free(&w->mine, &s->burst), FV_OK);
  } else {
    ANSWERS(fv_burst_open(&w->mine, &s->burst, BURST), FV_OK);
    uint32_t answer = fv_burst_fill(&w->mine, &s->burst, below(&w->state, FV_LARGEST + 1), BURST);
    CHECK(answer == FV_OK || answer == FV_USED_UP || answer == FV_NO_CHUNK);
    s->seed = (uint32_t)next_number(&w->state);
    for (size_t i = 0; i < fv_burst_len(&s->burst); i++) {
      ANSWERS(fv_burst_at(&s->burst, &span, i), FV_OK);
      lend(&held, span.at, span.len, s->seed + (uint32_t)i);
    }
  }
  pthread_mutex_unlock(&s->lock);
}

/* Gives its allocator back and attaches one again, which may be another. */
static void attach_again(worker *w) {
  uint64_t before = fv_allocator_stat(&w->mine, FV_ALLOCATOR_NUMBER);
  pthread_mutex_lock(&pool_lock);
  ANSWERS(fv_pool_detach(&pool, &w->mine), FV_OK);
  pthread_mutex_unlock(&pool_lock);
  sched_yield(); /* so that another thread attaches it */
  pthread_mutex_lock(&pool_lock);
  ANSWERS(fv_pool_attach(&pool, &w->mine), FV_OK);
  pthread_mutex_unlock(&pool_lock);
  if (fv_allocator_stat(&w->mine, FV_ALLOCATOR_NUMBER) != before) atomic_fetch_add(&reattached, 1);
}

static void exchange_allocators(worker *w) {
  pthread_mutex_lock(&hand_over);
  fv_allocator kept = handed;
  handed = w->mine;
  w->mine = kept;
  pthread_mutex_unlock(&hand_over);
}

static void step(worker *w) {
  lent_buf *place = &w->own[below(&w->state, OWN)];
  size_t what = below(&w->state, 100);
  if (what < 40) lend_one(w, place);
  else if (what < 65) free_one(w, place);
  else if (what < 85) swap_buffers(w, place);
  else if (what < 93) swap_burst(w);
  else if (what < 96) ANSWERS(fv_flush(&w->mine), FV_OK);
  else if (what < 98) (void)fv_collect(&w->mine);
  else if (what < 99) attach_again(w);
  else exchange_allocators(w);
}

static void *work(void *argument) {
  worker *w = argument;
  fv_allocator_init(&w->mine);
  pthread_mutex_lock(&pool_lock);
  ANSWERS(fv_pool_attach(&pool, &w->mine), FV_OK);
  pthread_mutex_unlock(&pool_lock);
  for (size_t i = 0; i < steps; i++) step(w);
  for (size_t i = 0; i < OWN; i++) free_one(w, &w->own[i]);
  pthread_mutex_lock(&pool_lock);
  ANSWERS(fv_pool_detach(&pool, &w->mine), FV_OK);
  pthread_mutex_unlock(&pool_lock);
  return NULL;
}

/* The last thread frees what was left for others, at the allocator that was handed about. */
static void clear_up(void) {
  worker last = {.mine = handed, .state = 1};
  for (size_t i = 0; i < SHARED; i++) {
    if (fv_buf_capacity(&swaps[i].buf.buf) > 0) free_one(&last, &swaps[i].buf);
    size_t there = fv_burst_len(&swaps[i].burst);
    for (size_t k = 0; k < there; k++) {
      fv_span span = {0};
      ANSWERS(fv_burst_at(&swaps[i].burst, &span, k), FV_OK);
      unlend(&held, span.at, span.len, swaps[i].seed + (uint32_t)k);
    }
    uint32_t answer = fv_burst_free(&last.mine, &swaps[i].burst);
    CHECK(answer == FV_OK || (answer == FV_EMPTY && there == 0));
    pthread_mutex_destroy(&swaps[i].lock);
  }
  ANSWERS(fv_pool_detach(&pool, &last.mine), FV_OK);
}

int main(int argc, char **argv) {
  size_t threads = argc > 1 ? strtoul(argv[1], NULL, 10) : 16;
  steps = argc > 2 ? strtoul(argv[2], NULL, 10) : 20000;
  uint32_t bits = argc > 3 ? (uint32_t)strtoul(argv[3], NULL, 10) : 6;
  CHECK(threads >= 1 && threads < FV_MOST_ALLOCATORS);
  unsigned char *region = new_region(CHUNKS);
  worker *workers = aligned_alloc(16, threads * sizeof(worker));
  pthread_t started[FV_MOST_ALLOCATORS];
  CHECK(workers != NULL);
  held = new_holders(region, (size_t)CHUNKS * FV_CHUNK);
  fv_pool_init(&pool);
  fv_allocator_init(&handed);
  ANSWERS(fv_pool_open(&pool, region, (size_t)CHUNKS * FV_CHUNK, (uint32_t)threads + 1, bits, 4096), FV_OK);
  ANSWERS(fv_pool_attach(&pool, &handed), FV_OK);
  for (size_t i = 0; i < SHARED; i++) {
    CHECK(pthread_mutex_init(&swaps[i].lock, NULL) == 0);
    fv_buf_init(&swaps[i].buf.buf);
    fv_burst_init(&swaps[i].burst);
  }
  for (size_t i = 0; i < threads; i++) {
    workers[i].state = i + 1;
    for (size_t k = 0; k < OWN; k++) fv_buf_init(&workers[i].own[k].buf);
    CHECK(pthread_create(&started[i], NULL, work, &workers[i]) == 0);
  }
  for (size_t i = 0; i < threads; i++) CHECK(pthread_join(started[i], NULL) == 0);
  clear_up();
  ANSWERS(fv_pool_close(&pool), FV_OK);
  CHECK(count_held(&held) == 0);
  free(workers);
  free(held.marks);
  free(region);
  printf("crowd: %zu threads, %zu steps each, %u bits: %llu times another's allocator, %llu times used up, "
         "audit 0\n",
         threads, steps, (unsigned)bits, (unsigned long long)reattached, (unsigned long long)refused);
  return 0;
}
