/* Producers lend and send, consumers look and free: 2, 4, .. threads, single buffers and bursts. threads
 * [MOST THREADS] [BUFFERS OF EACH PRODUCER] */
#include "holders.h"
#include "lane.h"
#include <sched.h>

enum { CHUNKS = 1024, BURST = 64, LANES = FV_MOST_ALLOCATORS / 2 };
static fv_pool pool;
static pthread_mutex_t pool_lock = PTHREAD_MUTEX_INITIALIZER;
static holders held;
static lane lanes[LANES];
static size_t count, in_bursts;
static atomic_ullong lent, freed;
static pthread_barrier_t drawn;

/* An allocator's counts go on where another thread left it. */
static void attach(fv_allocator *mine) {
  fv_allocator_init(mine);
  pthread_mutex_lock(&pool_lock);
  ANSWERS(fv_pool_attach(&pool, mine), FV_OK);
  pthread_mutex_unlock(&pool_lock);
  atomic_fetch_sub(&lent, fv_allocator_stat(mine, FV_ALLOCATOR_LENT));
  atomic_fetch_sub(&freed, fv_allocator_stat(mine, FV_ALLOCATOR_FREED));
}

static void detach(fv_allocator *mine) {
  atomic_fetch_add(&lent, fv_allocator_stat(mine, FV_ALLOCATOR_LENT));
  atomic_fetch_add(&freed, fv_allocator_stat(mine, FV_ALLOCATOR_FREED));
  pthread_mutex_lock(&pool_lock);
  ANSWERS(fv_pool_detach(&pool, mine), FV_OK);
  pthread_mutex_unlock(&pool_lock);
}

static void used_up(fv_allocator *mine, uint32_t answer) {
  ANSWERS(answer, FV_USED_UP);
  if (fv_collect(mine) == FV_EMPTY) {
    ANSWERS(fv_flush(mine), FV_OK);
    sched_yield();
  }
}

/* Says how many it sent: one, or none where the pool is used up for now. */
static size_t send_buffer(fv_allocator *mine, lane *l, size_t size, uint32_t seed) {
  parcel p = {.seed = seed};
  fv_buf_init(&p.buf);
  fv_burst_init(&p.burst);
  uint32_t answer = fv_alloc(mine, &p.buf, size);
  if (answer != FV_OK) {
    used_up(mine, answer);
    return 0;
  }
  lend(&held, p.buf.at, fv_buf_capacity(&p.buf), seed);
  ANSWERS(fv_buf_set_len(&p.buf, size), FV_OK);
  send(l, &p);
  return 1;
}

static size_t send_burst(fv_allocator *mine, lane *l, size_t size, uint32_t seed) {
  parcel p = {.seed = seed};
  fv_buf_init(&p.buf);
  fv_burst_init(&p.burst);
  ANSWERS(fv_burst_open(mine, &p.burst, BURST), FV_OK);
  uint32_t answer = fv_burst_fill(mine, &p.burst, size, BURST);
  size_t sent = fv_burst_len(&p.burst);
  if (answer != FV_OK) used_up(mine, answer);
  if (sent == 0) {
    ANSWERS(fv_burst_free(mine, &p.burst), FV_OK);
    return 0;
  }
  for (size_t i = 0; i < sent; i++) {
    fv_span span = {0};
    ANSWERS(fv_burst_at(&p.burst, &span, i), FV_OK);
    lend(&held, span.at, span.len, seed + (uint32_t)i);
  }
  send(l, &p);
  return sent;
}

/* Chunks stay with who drew them, so each producer draws one of each class before the others draw more. */
static void draw_one_of_each(fv_allocator *mine) {
  for (size_t size = 16; size <= 128; size += 16) {
    fv_buf buf;
    fv_buf_init(&buf);
    ANSWERS(fv_alloc(mine, &buf, size), FV_OK);
    ANSWERS(fv_free(mine, &buf), FV_OK);
  }
  pthread_barrier_wait(&drawn);
}

static void *produce(void *argument) {
  lane *l = argument;
  static _Thread_local fv_allocator mine;
  uint64_t state = (uint64_t)(l - lanes) + 1;
  attach(&mine);
  draw_one_of_each(&mine);
  for (size_t sent = 0; sent < count;) {
    size_t size = 16 + below(&state, 113);
    sent += (in_bursts ? send_burst : send_buffer)(&mine, l, size, (uint32_t)next_number(&state));
  }
  end_lane(l);
  detach(&mine);
  return NULL;
}

static size_t free_parcel(fv_allocator *mine, parcel *p) {
  if (!in_bursts) {
    CHECK(fv_buf_len(&p->buf) <= fv_buf_capacity(&p->buf) && fv_buf_len(&p->buf) >= 16);
    unlend(&held, p->buf.at, fv_buf_capacity(&p->buf), p->seed);
    ANSWERS(fv_free(mine, &p->buf), FV_OK);
    return 1;
  }
  size_t there = fv_burst_len(&p->burst);
  for (size_t i = 0; i < there; i++) {
    fv_span span = {0};
    ANSWERS(fv_burst_at(&p->burst, &span, i), FV_OK);
    unlend(&held, span.at, span.len, p->seed + (uint32_t)i);
  }
  ANSWERS(fv_burst_free(mine, &p->burst), FV_OK);
  return there;
}

static void *consume(void *argument) {
  lane *l = argument;
  static _Thread_local fv_allocator mine;
  size_t got = 0;
  parcel p;
  attach(&mine);
  while (receive(l, &mine, &p)) got += free_parcel(&mine, &p);
  CHECK(got >= count);
  detach(&mine);
  return NULL;
}

static void run(size_t threads, unsigned char *region) {
  pthread_t started[FV_MOST_ALLOCATORS];
  lent = freed = 0;
  CHECK(pthread_barrier_init(&drawn, NULL, (unsigned)threads / 2) == 0);
  ANSWERS(fv_pool_open(&pool, region, (size_t)CHUNKS * FV_CHUNK, (uint32_t)threads, 6, 16384), FV_OK);
  for (size_t i = 0; i < threads / 2; i++) {
    open_lane(&lanes[i], in_bursts ? 4 : PLACES);
    CHECK(pthread_create(&started[2 * i], NULL, produce, &lanes[i]) == 0);
    CHECK(pthread_create(&started[2 * i + 1], NULL, consume, &lanes[i]) == 0);
  }
  for (size_t i = 0; i < threads; i++) CHECK(pthread_join(started[i], NULL) == 0);
  ANSWERS(fv_pool_close(&pool), FV_OK);
  CHECK(lent == freed && lent >= threads / 2 * count && count_held(&held) == 0);
  pthread_barrier_destroy(&drawn);
  for (size_t i = 0; i < threads / 2; i++) close_lane(&lanes[i]);
}

int main(int argc, char **argv) {
  size_t most = argc > 1 ? strtoul(argv[1], NULL, 10) : FV_MOST_ALLOCATORS;
  count = argc > 2 ? strtoul(argv[2], NULL, 10) : 20000;
  CHECK(most >= 2 && most <= FV_MOST_ALLOCATORS && count > 0);
  unsigned char *region = new_region(CHUNKS);
  held = new_holders(region, (size_t)CHUNKS * FV_CHUNK);
  fv_pool_init(&pool);
  for (size_t threads = 2; threads <= most; threads *= 2) {
    for (in_bursts = 0; in_bursts < 2; in_bursts++) run(threads, region);
  }
  free(held.marks);
  free(region);
  printf("threads: 2 to %zu threads, %zu buffers of each producer, single and in bursts: audit 0\n", most,
         count);
  return 0;
}
