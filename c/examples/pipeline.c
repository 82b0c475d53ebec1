/* Two sources fill packets in bursts, two checkers look at them, and one sink adds up what they found.
 *
 * source --burst--> checker --burst--> sink
 *
 * Each arrow is a bounded queue. A packet's bytes are written once and never copied; whichever thread frees
 * a burst, its buffers go home to the source that lent them. Build: cc -pthread pipeline.c -lfustrevol */
#include "fustrevol.h"
#include <inttypes.h>
#include <pthread.h>
#include <stdio.h>
#include <stdlib.h>
#include <string.h>

enum { LINES = 2, THREADS = 2 * LINES + 1, BURST = 64, PACKETS = 100000, DEPTH = 16 };

typedef struct {
  uint64_t number, checksum;
  unsigned char text[48];
} packet;

typedef struct {
  fv_burst bursts[DEPTH];
  size_t sent, received, senders;
  pthread_mutex_t lock;
  pthread_cond_t moved;
} queue;

static fv_pool pool;
static pthread_mutex_t pool_lock = PTHREAD_MUTEX_INITIALIZER;
static queue to_checker[LINES], to_sink;
static _Alignas(16) unsigned char region[256 * FV_CHUNK];

/* What must not fail. */
static void must(uint32_t answer) {
  if (answer == FV_OK) return;
  fprintf(stderr, "pipeline: %s\n", fv_strerror(answer));
  exit(1);
}

static void attach(fv_allocator *mine) {
  fv_allocator_init(mine);
  pthread_mutex_lock(&pool_lock);
  must(fv_pool_attach(&pool, mine));
  pthread_mutex_unlock(&pool_lock);
}

static void detach(fv_allocator *mine) {
  pthread_mutex_lock(&pool_lock);
  must(fv_pool_detach(&pool, mine));
  pthread_mutex_unlock(&pool_lock);
}

static void open_queue(queue *q, size_t senders) {
  q->senders = senders;
  pthread_mutex_init(&q->lock, NULL);
  pthread_cond_init(&q->moved, NULL);
}

/* The burst is the queue's then: its bytes are copied, and the sender's copy is not used any more. */
static void send(queue *q, const fv_burst *burst) {
  pthread_mutex_lock(&q->lock);
  while (q->sent - q->received == DEPTH) pthread_cond_wait(&q->moved, &q->lock);
  q->bursts[q->sent++ % DEPTH] = *burst;
  pthread_cond_broadcast(&q->moved);
  pthread_mutex_unlock(&q->lock);
}

static void end(queue *q) {
  pthread_mutex_lock(&q->lock);
  q->senders--;
  pthread_cond_broadcast(&q->moved);
  pthread_mutex_unlock(&q->lock);
}

static int receive(queue *q, fv_burst *burst) {
  pthread_mutex_lock(&q->lock);
  while (q->sent == q->received && q->senders > 0) pthread_cond_wait(&q->moved, &q->lock);
  int found = q->sent > q->received;
  if (found) *burst = q->bursts[q->received++ % DEPTH];
  pthread_cond_broadcast(&q->moved);
  pthread_mutex_unlock(&q->lock);
  return found;
}

/* A burst lies over bytes that hold a packet each. */
static packet *packet_at(fv_burst *burst, size_t index) {
  fv_span span = {0};
  must(fv_burst_at(burst, &span, index));
  return (packet *)span.at;
}

static void *source(void *argument) {
  static _Thread_local fv_allocator mine;
  queue *out = argument;
  attach(&mine);
  for (uint64_t number = 0; number < PACKETS;) {
    fv_burst burst;
    fv_burst_init(&burst);
    must(fv_burst_open(&mine, &burst, BURST));
    must(fv_burst_fill(&mine, &burst, sizeof(packet),
                       BURST)); /* the queues are so short that the region suffices */
    for (size_t i = 0; i < BURST; i++, number++) {
      packet *p = packet_at(&burst, i);
      p->number = number;
      memset(p->text, 'a' + (int)(number % 26), sizeof p->text);
    }
    send(out, &burst);
  }
  end(out);
  detach(&mine);
  return NULL;
}

static void *check(void *argument) {
  queue *in = argument;
  fv_burst burst;
  for (uint64_t number = 0; receive(in, &burst);) {
    for (size_t i = 0; i < fv_burst_len(&burst); i++, number++) {
      packet *p = packet_at(&burst, i);
      if (p->number != number || p->text[0] != 'a' + (int)(number % 26)) exit(1);
      p->checksum = 0;
      for (size_t k = 0; k < sizeof p->text; k++) p->checksum += p->text[k];
    }
    send(&to_sink, &burst);
  }
  end(&to_sink);
  return NULL;
}

static void *sink(void *argument) {
  static _Thread_local fv_allocator mine;
  uint64_t *sums = argument; /* how many packets, and the sum of their checksums */
  fv_burst burst;
  attach(&mine);
  while (receive(&to_sink, &burst)) {
    size_t count = fv_burst_len(&burst);
    for (size_t i = 0; i < count; i++) sums[1] += packet_at(&burst, i)->checksum;
    sums[0] += count;
    must(fv_burst_free(&mine, &burst)); /* all of it at the cost of one buffer */
  }
  detach(&mine);
  return NULL;
}

int main(void) {
  pthread_t threads[THREADS];
  uint64_t sums[2] = {0}, bursts = (PACKETS + BURST - 1) / BURST, expected = 0;
  fv_pool_init(&pool);
  must(
      fv_pool_open(&pool, region, sizeof region, LINES + 1, 6, 65536)); /* checkers neither lend nor free */
  open_queue(&to_sink, LINES);
  for (size_t i = 0; i < LINES; i++) {
    open_queue(&to_checker[i], 1);
    pthread_create(&threads[2 * i], NULL, source, &to_checker[i]);
    pthread_create(&threads[2 * i + 1], NULL, check, &to_checker[i]);
  }
  pthread_create(&threads[THREADS - 1], NULL, sink, sums);
  for (size_t i = 0; i < THREADS; i++) pthread_join(threads[i], NULL);

  for (uint64_t number = 0; number < bursts * BURST; number++) expected += 48 * ('a' + number % 26) * LINES;
  uint32_t audit = fv_pool_close(&pool);
  printf("packets %" PRIu64 ", checksums %s, audit: %s\n", sums[0], sums[1] == expected ? "right" : "WRONG",
         fv_strerror(audit));
  return sums[0] != bursts * BURST * LINES || sums[1] != expected || audit != FV_OK;
}
