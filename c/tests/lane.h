/* A bounded queue between one producer and one consumer. It holds what a thread hands to another: a buffer
 * or a burst, with what its bytes should be. */
#ifndef LANE_H
#define LANE_H
#include "check.h"
#include <pthread.h>

enum { PLACES = 64 };

typedef struct {
  fv_buf buf;
  fv_burst burst;
  uint32_t seed;
} parcel;

typedef struct {
  parcel parcels[PLACES];
  size_t sent, received, depth;
  int ended;
  pthread_mutex_t lock;
  pthread_cond_t moved;
} lane;

static inline void open_lane(lane *l, size_t depth) {
  CHECK(depth <= PLACES);
  l->sent = l->received = 0;
  l->depth = depth;
  l->ended = 0;
  CHECK(pthread_mutex_init(&l->lock, NULL) == 0 && pthread_cond_init(&l->moved, NULL) == 0);
}

static inline void close_lane(lane *l) {
  pthread_mutex_destroy(&l->lock);
  pthread_cond_destroy(&l->moved);
}

static inline void send(lane *l, const parcel *p) {
  pthread_mutex_lock(&l->lock);
  while (l->sent - l->received == l->depth) pthread_cond_wait(&l->moved, &l->lock);
  l->parcels[l->sent++ % PLACES] = *p;
  pthread_cond_signal(&l->moved);
  pthread_mutex_unlock(&l->lock);
}

static inline void end_lane(lane *l) {
  pthread_mutex_lock(&l->lock);
  l->ended = 1;
  pthread_cond_signal(&l->moved);
  pthread_mutex_unlock(&l->lock);
}

/* Before it waits, it posts what it caches: the producer may need it. Says whether there was one more. */
static inline int receive(lane *l, fv_allocator *mine, parcel *p) {
  pthread_mutex_lock(&l->lock);
  if (l->sent == l->received && !l->ended) {
    pthread_mutex_unlock(&l->lock);
    ANSWERS(fv_flush(mine), FV_OK);
    pthread_mutex_lock(&l->lock);
    while (l->sent == l->received && !l->ended) pthread_cond_wait(&l->moved, &l->lock);
  }
  int found = l->sent > l->received;
  if (found) {
    *p = l->parcels[l->received++ % PLACES];
    pthread_cond_signal(&l->moved);
  }
  pthread_mutex_unlock(&l->lock);
  return found;
}
#endif
