/* zeromq.c: messages of ZeroMQ whose bytes lie in buffers of the pool.
 *
 *   zeromq [MESSAGES]
 *
 * A thread sends so many messages, a million where it isn't said, and another one receives and checks them:
 * once in the process, once over TCP on the loopback. `zmq_msg_init_data` hands ZeroMQ the buffer's bytes
 * and a function that frees it. ZeroMQ calls that on whichever thread is done with the message: the one that
 * receives, or an I/O thread of its own. So each thread attaches an allocator where it first frees.
 *
 * ZeroMQ hands a message from thread to thread by atomics of its own, with acquire and release order. On
 * x86-64 they order what fustrevol.h asks for. */
#include <fustrevol.h>
#include <pthread.h>
#include <sched.h>
#include <stdio.h>
#include <stdlib.h>
#include <string.h>
#include <zmq.h>

enum { THREADS = 16, LEN = 4 << 20, LEAST = 40, MOST = FV_LARGEST - (int)sizeof(fv_buf) };

static _Alignas(16) unsigned char region[LEN];
static fv_pool pool;
static fv_allocator allocators[THREADS];
static int attached;
static pthread_mutex_t lock = PTHREAD_MUTEX_INITIALIZER;
static _Thread_local fv_allocator *held;
static size_t messages = 1000000;

static void must(int well, const char *what) {
  if (well) return;
  fprintf(stderr, "zeromq: %s: %s\n", what, zmq_strerror(zmq_errno()));
  exit(1);
}

/* This thread's allocator, which is attached at the first call. */
static fv_allocator *mine(void) {
  if (held) return held;
  pthread_mutex_lock(&lock);
  must(attached < THREADS, "more threads than allocators");
  held = &allocators[attached++];
  fv_allocator_init(held);
  uint32_t answer = fv_pool_attach(&pool, held);
  pthread_mutex_unlock(&lock);
  must(answer == FV_OK, fv_strerror(answer));
  return held;
}

/* The handle of a message's buffer lies at the buffer's front, and the message behind it. */
static void give_back(void *message, void *front) {
  fv_buf buf;
  (void)message;
  memcpy(&buf, front, sizeof buf);
  must(fv_free(mine(), &buf) == FV_OK, "fv_free");
}

static fv_buf lent(size_t size) {
  fv_buf buf;
  fv_buf_init(&buf);
  for (;;) {
    uint32_t answer = fv_alloc(mine(), &buf, size);
    if (answer == FV_OK) return buf;
    must(answer == FV_USED_UP, fv_strerror(answer));
    sched_yield(); /* others hold the buffers: they come home when ZeroMQ is done with them */
  }
}

static size_t size_of(size_t number) { return LEAST + number * 37 % (MOST - LEAST + 1); }

/* Sends all to a PUSH socket. */
static void *send_all(void *socket) {
  for (size_t number = 0; number < messages; number++) {
    size_t size = size_of(number);
    fv_buf buf = lent(sizeof buf + size);
    unsigned char *front = buf.at, *bytes = buf.at + sizeof buf;
    memset(bytes, (int)(number % 251), size);
    memcpy(bytes, &number, sizeof number);
    memcpy(front, &buf, sizeof buf);
    zmq_msg_t message;
    must(zmq_msg_init_data(&message, bytes, size, give_back, front) == 0, "zmq_msg_init_data");
    must(zmq_msg_send(&message, socket, 0) == (int)size, "zmq_msg_send");
  }
  fv_flush(mine());
  return NULL;
}

static int is_right(const unsigned char *bytes, size_t size, size_t number) {
  size_t told;
  if (size != size_of(number)) return 0;
  memcpy(&told, bytes, sizeof told);
  for (size_t i = sizeof told; i < size; i++)
    if (bytes[i] != number % 251) return 0;
  return told == number;
}

static size_t receive_all(void *socket) {
  size_t right = 0;
  for (size_t number = 0; number < messages; number++) {
    zmq_msg_t message;
    zmq_msg_init(&message);
    must(zmq_msg_recv(&message, socket, 0) >= 0, "zmq_msg_recv");
    right += (size_t)is_right(zmq_msg_data(&message), zmq_msg_size(&message), number);
    zmq_msg_close(&message);
  }
  fv_flush(mine());
  return right;
}

/* All messages from one thread to another over this transport: how many came as they were sent. */
static size_t carried(const char *at) {
  void *context = zmq_ctx_new();
  void *from = zmq_socket(context, ZMQ_PULL), *to = zmq_socket(context, ZMQ_PUSH);
  char endpoint[256];
  size_t length = sizeof endpoint;
  must(from && to, "zmq_socket");
  must(zmq_bind(from, at) == 0, at);
  must(zmq_getsockopt(from, ZMQ_LAST_ENDPOINT, endpoint, &length) == 0, "ZMQ_LAST_ENDPOINT");
  must(zmq_connect(to, endpoint) == 0, endpoint);
  pthread_t sender;
  must(pthread_create(&sender, NULL, send_all, to) == 0, "pthread_create");
  size_t right = receive_all(from);
  pthread_join(sender, NULL);
  zmq_close(to);
  zmq_close(from);
  zmq_ctx_term(context); /* ZeroMQ's own threads have ended then */
  return right;
}

int main(int count, char **words) {
  if (count > 1) messages = strtoull(words[1], NULL, 10);
  fv_pool_init(&pool);
  uint32_t answer = fv_pool_open(&pool, region, LEN, THREADS, 6, 16384);
  must(answer == FV_OK, fv_strerror(answer));

  size_t inside = carried("inproc://messages"), over_tcp = carried("tcp://127.0.0.1:*");

  /* The threads that attached these have ended, but for this one. */
  for (int i = 0; i < attached; i++) fv_pool_detach(&pool, &allocators[i]);
  answer = fv_pool_close(&pool);
  printf("zeromq: %zu and %zu of %zu messages right, by %d threads, audit: %s\n", inside, over_tcp, messages, attached,
         fv_strerror(answer));
  return answer != FV_OK || inside != messages || over_tcp != messages;
}
