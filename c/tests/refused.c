/* Each time that the library takes memory is refused in turn: the call says so and changes nothing, the
 * same call goes well when it is made again, and in the end all memory is given back. Linked with
 * -Wl,--wrap=malloc,--wrap=realloc,--wrap=aligned_alloc,--wrap=free. */
#include "check.h"

void *__real_malloc(size_t size);
void *__real_realloc(void *at, size_t size);
void *__real_aligned_alloc(size_t align, size_t size);
void __real_free(void *at);
void *__wrap_malloc(size_t size);
void *__wrap_realloc(void *at, size_t size);
void *__wrap_aligned_alloc(size_t align, size_t size);
void __wrap_free(void *at);

static int counting;
static size_t asked, refuse_at, refusals, blocks;

static int refuses(void) {
  if (!counting) return 0;
  asked++;
  if (asked != refuse_at) return 0;
  refusals++;
  return 1;
}

void *__wrap_malloc(size_t size) {
  if (refuses()) return NULL;
  void *at = __real_malloc(size);
  if (counting && at != NULL) blocks++;
  return at;
}

void *__wrap_realloc(void *at, size_t size) {
  if (refuses()) return NULL;
  void *moved = __real_realloc(at, size);
  if (counting && at == NULL && moved != NULL) blocks++;
  return moved;
}

void *__wrap_aligned_alloc(size_t align, size_t size) {
  if (refuses()) return NULL;
  void *at = __real_aligned_alloc(align, size);
  if (counting && at != NULL) blocks++;
  return at;
}

void __wrap_free(void *at) {
  if (counting && at != NULL) blocks--;
  __real_free(at);
}

enum { CHUNKS = 64, BUFFERS = 40, BURST = 20 };
static fv_pool pool;
static fv_allocator mine[3];
static fv_buf bufs[BUFFERS];
static fv_burst bursts[3];

/* The call goes well, or was refused memory, and then goes well. */
#define GOES(call)                                                                                         \
  do {                                                                                                     \
    size_t before_ = refusals;                                                                             \
    uint32_t first_ = (call);                                                                              \
    if (first_ != FV_OK) {                                                                                 \
      ANSWERS(first_, FV_NO_MEMORY);                                                                       \
      CHECK(refusals == before_ + 1);                                                                      \
      ANSWERS(call, FV_OK);                                                                                \
    }                                                                                                      \
  } while (0)

static void open_pool(unsigned char *region) {
  size_t blocks_before = blocks, refusals_before = refusals;
  uint32_t answer = fv_pool_open(&pool, region, (size_t)CHUNKS * FV_CHUNK, 3, 6, 1024);
  if (answer != FV_OK) {
    ANSWERS(answer, FV_NO_MEMORY);
    CHECK(refusals == refusals_before + 1 && blocks == blocks_before);
    CHECK(fv_pool_stat(&pool, FV_POOL_ALLOCATORS) == 0);
    ANSWERS(fv_pool_close(&pool), FV_EMPTY);
    ANSWERS(fv_pool_open(&pool, region, (size_t)CHUNKS * FV_CHUNK, 3, 6, 1024), FV_OK);
  }
}

static void lend_and_free(void) {
  for (size_t i = 0; i < BUFFERS; i++) {
    fv_allocator *owner = &mine[i % 3];
    GOES(fv_alloc(owner, &bufs[i], 16 + i * 12));
    CHECK(fv_buf_capacity(&bufs[i]) >= 16 + i * 12);
  }
  for (size_t i = 0; i < BUFFERS; i++) GOES(fv_free(&mine[(i + i / 3) % 3], &bufs[i]));
}

/* A burst that was filled in part is filled up by the second call. */
static void fill_burst(fv_allocator *owner, fv_burst *burst, size_t size) {
  size_t before = refusals;
  uint32_t answer = fv_burst_fill(owner, burst, size, BURST);
  if (answer != FV_OK) {
    ANSWERS(answer, FV_NO_MEMORY);
    CHECK(refusals == before + 1);
    size_t there = fv_burst_len(burst);
    ANSWERS(fv_burst_fill(owner, burst, size, BURST - there), FV_OK);
  }
  CHECK(fv_burst_len(burst) == BURST);
}

static void lend_and_free_bursts(void) {
  for (size_t i = 0; i < 3; i++) {
    GOES(fv_burst_open(&mine[i], &bursts[i], BURST));
    fill_burst(&mine[i], &bursts[i], 16 + 100 * i);
  }
  for (size_t i = 0; i < 3; i++) GOES(fv_burst_free(&mine[(i + 1) % 3], &bursts[i]));
  for (size_t i = 0; i < 3; i++) GOES(fv_flush(&mine[i]));
}

/* Says whether a request was refused. */
static int run(unsigned char *region, size_t at) {
  asked = refusals = blocks = 0;
  refuse_at = at;
  counting = 1;
  open_pool(region);
  for (size_t i = 0; i < 3; i++) GOES(fv_pool_attach(&pool, &mine[i]));
  lend_and_free();
  lend_and_free_bursts();
  lend_and_free();
  for (size_t i = 0; i < 3; i++) GOES(fv_pool_detach(&pool, &mine[i]));
  size_t before = refusals;
  uint32_t answer = fv_pool_close(&pool);
  ANSWERS(answer, refusals > before ? FV_AUDIT_NO_MEMORY : FV_OK);
  counting = 0;
  CHECK(blocks == 0 && fv_pool_stat(&pool, FV_POOL_ALLOCATORS) == 0);
  return refusals > 0;
}

int main(void) {
  unsigned char *region = new_region(CHUNKS);
  fv_pool_init(&pool);
  for (size_t i = 0; i < 3; i++) fv_allocator_init(&mine[i]);
  for (size_t i = 0; i < BUFFERS; i++) fv_buf_init(&bufs[i]);
  for (size_t i = 0; i < 3; i++) fv_burst_init(&bursts[i]);
  size_t at = 1;
  while (run(region, at)) at++;
  CHECK(at > 100 && asked == at - 1);
  free(region);
  printf("refused: each of %zu requests for memory refused in turn, and all memory given back\n", at - 1);
  return 0;
}
