/* Every answer of every call, on one thread. */
#include "check.h"
#include <string.h>

enum { CHUNKS = 64, LEN = CHUNKS * FV_CHUNK };
static fv_pool pool, other_pool;
static fv_allocator a, b, none;
static fv_buf buf, second;
static fv_burst burst;

static void open_two(unsigned char *region) {
  ANSWERS(fv_pool_open(&pool, region, LEN, 2, 6, 65536), FV_OK);
  ANSWERS(fv_pool_attach(&pool, &a), FV_OK);
  ANSWERS(fv_pool_attach(&pool, &b), FV_OK);
}

static void close_two(uint32_t expected) {
  ANSWERS(fv_pool_detach(&pool, &a), FV_OK);
  ANSWERS(fv_pool_detach(&pool, &b), FV_OK);
  ANSWERS(fv_pool_close(&pool), expected);
}

static void sizes_and_words(void) {
  CHECK(fv_pool_size() > 0 && fv_pool_size() <= sizeof(fv_pool));
  CHECK(fv_allocator_size() > 0 && fv_allocator_size() <= sizeof(fv_allocator));
  CHECK(fv_buf_size() == sizeof(fv_buf));
  CHECK(fv_burst_size() > 0 && fv_burst_size() <= sizeof(fv_burst));
  CHECK(strcmp(fv_version(), FV_VERSION) == 0);
  char made[32];
  snprintf(made, sizeof made, "%d.%d.%d", FV_VERSION_MAJOR, FV_VERSION_MINOR, FV_VERSION_PATCH);
  CHECK(strcmp(made, FV_VERSION) == 0);
  static const uint32_t known[] = {0, 1, 2, 3, 4, 5, 6, 7, 8, 9, 101, 102, 103, 104};
  enum { KNOWN = sizeof known / sizeof known[0] };
  for (size_t i = 0; i < KNOWN; i++) {
    CHECK(strcmp(fv_strerror(known[i]), "unknown answer") != 0);
    for (size_t j = 0; j < i; j++) CHECK(strcmp(fv_strerror(known[i]), fv_strerror(known[j])) != 0);
  }
  CHECK(strcmp(fv_strerror(10), "unknown answer") == 0 &&
        strcmp(fv_strerror(UINT32_MAX), "unknown answer") == 0);
}

/* Nothing is open, attached, lent. */
static void nothing_there(void) {
  fv_span span = {0};
  ANSWERS(fv_pool_attach(&pool, &a), FV_EMPTY);
  ANSWERS(fv_pool_detach(&pool, &a), FV_EMPTY);
  ANSWERS(fv_pool_close(&pool), FV_EMPTY);
  CHECK(fv_pool_stat(&pool, FV_POOL_ALLOCATORS) == 0 && fv_pool_stat(&pool, FV_POOL_IDLE) == 0);
  ANSWERS(fv_alloc(&a, &buf, 100), FV_EMPTY);
  ANSWERS(fv_free(&a, &buf), FV_EMPTY);
  ANSWERS(fv_flush(&a), FV_EMPTY);
  ANSWERS(fv_collect(&a), FV_EMPTY);
  for (uint32_t which = 0; which <= FV_ALLOCATOR_STOCK; which++)
    CHECK(fv_allocator_stat(&a, which) == UINT64_MAX);
  CHECK(fv_buf_capacity(&buf) == 0 && fv_buf_len(&buf) == 0);
  ANSWERS(fv_buf_set_len(&buf, 0), FV_EMPTY);
  ANSWERS(fv_burst_open(&a, &burst, 4), FV_EMPTY);
  ANSWERS(fv_burst_fill(&a, &burst, 16, 1), FV_EMPTY);
  ANSWERS(fv_burst_free(&a, &burst), FV_EMPTY);
  ANSWERS(fv_burst_push(&burst, &buf), FV_EMPTY);
  ANSWERS(fv_burst_pop(&burst, &buf), FV_EMPTY);
  CHECK(fv_burst_len(&burst) == 0);
  ANSWERS(fv_burst_at(&burst, &span, 0), FV_EMPTY);
  CHECK(span.at == NULL && span.len == 0);
}

/* Each number out of its range is refused, and each at its end is not. */
static void open_arguments(unsigned char *region, unsigned char *large) {
  const size_t most = (size_t)FV_MOST_CHUNKS * FV_CHUNK;
  ANSWERS(fv_pool_open(&pool, region, LEN, 0, 6, 4096), FV_BAD_ARGUMENT);
  ANSWERS(fv_pool_open(&pool, region, LEN, FV_MOST_ALLOCATORS + 1, 6, 4096), FV_BAD_ARGUMENT);
  ANSWERS(fv_pool_open(&pool, region, LEN, 2, 0, 4096), FV_BAD_ARGUMENT);
  ANSWERS(fv_pool_open(&pool, region, LEN, 2, 7, 4096), FV_BAD_ARGUMENT);
  ANSWERS(fv_pool_open(&pool, region, LEN, 2, 6, FV_MOST_LIMIT + 1), FV_BAD_ARGUMENT);
  ANSWERS(fv_pool_open(&pool, region, FV_CHUNK - 1, 2, 6, 4096), FV_BAD_ARGUMENT);
  ANSWERS(fv_pool_open(&pool, large, most + FV_CHUNK, 2, 6, 4096), FV_BAD_ARGUMENT);
  CHECK(fv_pool_stat(&pool, FV_POOL_ALLOCATORS) == 0);
  ANSWERS(fv_pool_close(&pool), FV_EMPTY);
  ANSWERS(fv_pool_open(&pool, region, FV_CHUNK, 1, 1, 0), FV_OK);
  ANSWERS(fv_pool_open(&pool, region, FV_CHUNK, 1, 1, 0), FV_HOLDS);
  ANSWERS(fv_pool_close(&pool), FV_OK);
  ANSWERS(fv_pool_open(&pool, large, most + FV_CHUNK - 1, FV_MOST_ALLOCATORS, 6, FV_MOST_LIMIT), FV_OK);
  CHECK(fv_pool_stat(&pool, FV_POOL_ALLOCATORS) == FV_MOST_ALLOCATORS);
  CHECK(fv_pool_stat(&pool, FV_POOL_IDLE) == FV_MOST_ALLOCATORS);
  ANSWERS(fv_pool_close(&pool), FV_OK);
}

static void attaching(unsigned char *region) {
  ANSWERS(fv_pool_open(&pool, region, LEN, 2, 6, 65536), FV_OK);
  ANSWERS(fv_pool_attach(&pool, &a), FV_OK);
  ANSWERS(fv_pool_attach(&pool, &a), FV_HOLDS);
  ANSWERS(fv_pool_attach(&pool, &b), FV_OK);
  ANSWERS(fv_pool_attach(&pool, &none), FV_EMPTY);
  CHECK(fv_allocator_stat(&a, FV_ALLOCATOR_NUMBER) + fv_allocator_stat(&b, FV_ALLOCATOR_NUMBER) == 1);
  CHECK(fv_allocator_stat(&a, FV_ALLOCATOR_STOCK) == CHUNKS);
  CHECK(fv_allocator_stat(&a, FV_ALLOCATOR_STOCK + 1) == UINT64_MAX);
  CHECK(fv_pool_stat(&pool, FV_POOL_ALLOCATORS) == 2 && fv_pool_stat(&pool, FV_POOL_IDLE) == 0);
  CHECK(fv_pool_stat(&pool, FV_POOL_FAULT + 1) == UINT64_MAX);
  ANSWERS(fv_pool_close(&pool), FV_FULL);
  ANSWERS(fv_pool_detach(&pool, &a), FV_OK);
  ANSWERS(fv_pool_detach(&pool, &a), FV_EMPTY);
  CHECK(fv_pool_stat(&pool, FV_POOL_IDLE) == 1);
  ANSWERS(fv_pool_close(&pool), FV_FULL);

  /* A pool takes no other pool's allocator, whether one of its own is attached or none. */
  ANSWERS(fv_pool_open(&other_pool, region + LEN, LEN, 1, 6, 65536), FV_OK);
  ANSWERS(fv_pool_attach(&other_pool, &a), FV_OK);
  ANSWERS(fv_pool_detach(&pool, &a), FV_STRANGER);
  ANSWERS(fv_pool_detach(&pool, &b), FV_OK);
  ANSWERS(fv_pool_detach(&pool, &a), FV_STRANGER);
  ANSWERS(fv_pool_detach(&other_pool, &a), FV_OK);
  ANSWERS(fv_pool_close(&other_pool), FV_OK);
  ANSWERS(fv_pool_close(&pool), FV_OK);
  ANSWERS(fv_pool_close(&pool), FV_EMPTY);
}

/* Each size is lent by its class, in bytes of its own. */
static void each_size(unsigned char *region) {
  open_two(region);
  for (size_t size = 0; size <= FV_LARGEST; size++) {
    ANSWERS(fv_alloc(&a, &buf, size), FV_OK);
    CHECK(fv_buf_capacity(&buf) == class_size(size) && fv_buf_len(&buf) == 0);
    CHECK(buf.at >= region && buf.at + fv_buf_capacity(&buf) <= region + LEN &&
          (size_t)(buf.at - region) % 16 == 0);
    memset(buf.at, (int)size, fv_buf_capacity(&buf));
    ANSWERS(fv_free(size % 2 ? &b : &a, &buf), FV_OK);
    ANSWERS(fv_flush(&b), FV_OK);
  }
  CHECK(fv_allocator_stat(&a, FV_ALLOCATOR_LENT) == FV_LARGEST + 1);
  CHECK(fv_allocator_stat(&a, FV_ALLOCATOR_FREED) + fv_allocator_stat(&b, FV_ALLOCATOR_FREED) ==
        FV_LARGEST + 1);
  close_two(FV_OK);
}

static void buffers(unsigned char *region) {
  open_two(region);
  ANSWERS(fv_alloc(&a, &buf, FV_LARGEST + 1), FV_TOO_LARGE);
  ANSWERS(fv_alloc(&a, &buf, SIZE_MAX), FV_TOO_LARGE);
  CHECK(fv_buf_capacity(&buf) == 0);
  ANSWERS(fv_alloc(&a, &buf, 100), FV_OK);
  unsigned char *at = buf.at;
  ANSWERS(fv_alloc(&a, &buf, 100), FV_HOLDS);
  ANSWERS(fv_alloc(&none, &second, 100), FV_EMPTY);
  CHECK(buf.at == at && fv_buf_capacity(&buf) == 112);
  ANSWERS(fv_buf_set_len(&buf, 113), FV_FULL);
  CHECK(fv_buf_len(&buf) == 0);
  ANSWERS(fv_buf_set_len(&buf, 112), FV_OK);
  CHECK(fv_buf_len(&buf) == 112);
  ANSWERS(fv_buf_set_len(&buf, 7), FV_OK);
  CHECK(fv_buf_len(&buf) == 7);

  second = buf; /* what it holds moves with its bytes */
  fv_buf_init(&buf);
  CHECK(second.at == at && fv_buf_len(&second) == 7);
  ANSWERS(fv_free(&none, &second), FV_EMPTY);
  ANSWERS(fv_free(&b, &second), FV_OK);
  ANSWERS(fv_free(&b, &second), FV_EMPTY);
  CHECK(fv_allocator_stat(&b, FV_ALLOCATOR_CACHED) == 1 &&
        fv_allocator_stat(&b, FV_ALLOCATOR_CACHED_BYTES) == 112);
  ANSWERS(fv_collect(&a), FV_EMPTY);
  ANSWERS(fv_flush(&b), FV_OK);
  CHECK(fv_allocator_stat(&b, FV_ALLOCATOR_CACHED) == 0 && fv_allocator_stat(&b, FV_ALLOCATOR_POSTED) == 1);
  ANSWERS(fv_collect(&a), FV_OK);
  ANSWERS(fv_collect(&a), FV_EMPTY);
  CHECK(fv_allocator_stat(&a, FV_ALLOCATOR_TAKEN) == 1 &&
        fv_allocator_stat(&a, FV_ALLOCATOR_HOME) == FV_CHUNK / 112);
  ANSWERS(fv_alloc(&a, &buf, 100), FV_OK); /* the slot that came home last, and nothing of it is filled */
  CHECK(buf.at == at && fv_buf_len(&buf) == 0);
  ANSWERS(fv_free(&a, &buf), FV_OK);
  CHECK(buf.at == NULL);
  close_two(FV_OK);
}

static void bursts(unsigned char *region) {
  fv_span span = {0};
  open_two(region);
  ANSWERS(fv_burst_open(&a, &burst, 64), FV_OK);
  ANSWERS(fv_burst_open(&a, &burst, 64), FV_OK); /* it is empty */
  ANSWERS(fv_burst_fill(&b, &burst, 64, 1), FV_STRANGER);
  ANSWERS(fv_burst_fill(&none, &burst, 64, 1), FV_EMPTY);
  ANSWERS(fv_burst_fill(&a, &burst, FV_LARGEST + 1, 1), FV_TOO_LARGE);
  ANSWERS(fv_burst_fill(&a, &burst, 64, 0), FV_OK);
  ANSWERS(fv_burst_pop(&burst, &buf), FV_EMPTY);
  CHECK(fv_burst_len(&burst) == 0);
  ANSWERS(fv_burst_fill(&a, &burst, 64, 64), FV_OK);
  CHECK(fv_burst_len(&burst) == 64 && fv_allocator_stat(&a, FV_ALLOCATOR_LENT) == 64);
  ANSWERS(fv_burst_open(&a, &burst, 64), FV_HOLDS);
  ANSWERS(fv_burst_fill(&a, &burst, 64, 1), FV_FULL);
  CHECK(fv_burst_len(&burst) == 64 && fv_allocator_stat(&a, FV_ALLOCATOR_LENT) == 64);
  for (size_t i = 0; i < 64; i++) {
    ANSWERS(fv_burst_at(&burst, &span, i), FV_OK);
    CHECK(span.len == 64 && span.at >= region && span.at + 64 <= region + LEN);
    memset(span.at, (int)i, span.len);
  }
  fv_span last = span;
  ANSWERS(fv_burst_at(&burst, &span, 64), FV_EMPTY);
  CHECK(span.at == last.at && span.len == last.len);

  ANSWERS(fv_burst_pop(&burst, &buf), FV_OK);
  CHECK(buf.at == last.at && buf.at[0] == 63 && buf.at[63] == 63 && fv_burst_len(&burst) == 63);
  ANSWERS(fv_burst_pop(&burst, &buf), FV_HOLDS);
  ANSWERS(fv_buf_set_len(&buf, 5), FV_OK);
  ANSWERS(fv_burst_push(&burst, &buf), FV_OK);
  ANSWERS(fv_burst_push(&burst, &buf), FV_EMPTY);
  ANSWERS(fv_burst_pop(&burst, &buf), FV_OK);
  CHECK(fv_buf_len(&buf) == 5); /* its filled length goes with it */
  ANSWERS(fv_burst_push(&burst, &buf), FV_OK);
  ANSWERS(fv_alloc(&a, &buf, 64), FV_OK);
  ANSWERS(fv_burst_push(&burst, &buf), FV_FULL);
  CHECK(fv_buf_capacity(&buf) == 64);
  ANSWERS(fv_free(&a, &buf), FV_OK);
  ANSWERS(fv_alloc(&b, &buf, 64), FV_OK);
  ANSWERS(fv_burst_push(&burst, &buf), FV_STRANGER);
  CHECK(fv_buf_capacity(&buf) == 64);
  ANSWERS(fv_free(&b, &buf), FV_OK);
  ANSWERS(fv_burst_free(&none, &burst), FV_EMPTY);
  ANSWERS(fv_burst_free(&b, &burst), FV_OK);
  ANSWERS(fv_burst_free(&b, &burst), FV_EMPTY);
  CHECK(fv_allocator_stat(&b, FV_ALLOCATOR_CACHED) == 64);
  ANSWERS(fv_burst_open(&a, &burst, 1), FV_OK);
  ANSWERS(fv_burst_free(&b, &burst), FV_OK); /* an empty one ends, too */
  close_two(FV_OK);
}

/* One chunk has eight slots of 512 bytes, and the region no second chunk. */
static void used_up(unsigned char *region) {
  fv_buf eight[8];
  ANSWERS(fv_pool_open(&pool, region, FV_CHUNK, 2, 6, 65536), FV_OK);
  ANSWERS(fv_pool_attach(&pool, &a), FV_OK);
  ANSWERS(fv_pool_attach(&pool, &b), FV_OK);
  for (size_t i = 0; i < 8; i++) {
    fv_buf_init(&eight[i]);
    ANSWERS(fv_alloc(&a, &eight[i], 512), FV_OK);
  }
  ANSWERS(fv_alloc(&a, &buf, 512), FV_USED_UP);
  ANSWERS(fv_alloc(&a, &buf, 16), FV_NO_CHUNK);  /* the chunk is of another class */
  ANSWERS(fv_alloc(&b, &buf, 512), FV_NO_CHUNK); /* and another allocator's */
  ANSWERS(fv_burst_open(&a, &burst, 4), FV_OK);
  ANSWERS(fv_burst_fill(&a, &burst, 512, 4), FV_USED_UP);
  ANSWERS(fv_burst_fill(&a, &burst, 16, 4), FV_NO_CHUNK);
  for (size_t i = 0; i < 2; i++) ANSWERS(fv_free(&b, &eight[i]), FV_OK);
  ANSWERS(fv_flush(&b), FV_OK);
  ANSWERS(fv_burst_fill(&a, &burst, 512, 4), FV_USED_UP);
  CHECK(fv_burst_len(&burst) == 2); /* those that had come home */
  ANSWERS(fv_burst_free(&a, &burst), FV_OK);
  for (size_t i = 2; i < 8; i++) ANSWERS(fv_free(&b, &eight[i]), FV_OK);
  close_two(FV_OK);
}

fv_buf kept_from_before;
fv_buf kept
    [40]; /* the record of the lost one stays reachable here, so that a leak detector sees other leaks alone */

/* What was not freed is named: the slot's place in the region. */
static void missing(unsigned char *region) {
  open_two(region);
  for (size_t i = 0; i < 40; i++) {
    fv_buf_init(&kept[i]);
    ANSWERS(fv_alloc(&a, &kept[i], 256), FV_OK);
  }
  size_t lost = 37, offset = (size_t)(kept[lost].at - region);
  for (size_t i = 0; i < 40; i++) {
    if (i != lost) ANSWERS(fv_free(&b, &kept[i]), FV_OK);
  }
  close_two(FV_AUDIT_MISSING);
  CHECK(fv_pool_stat(&pool, FV_POOL_FAULT) == 256 * (offset / FV_CHUNK) + offset % FV_CHUNK / 256);
  CHECK(fv_pool_stat(&pool, FV_POOL_ALLOCATORS) == 0);
}

/* What is another pool's is refused, and stays where it is. The two allocators have one number. */
static void wrong_pool(unsigned char *region) {
  open_two(region);
  ANSWERS(fv_pool_open(&other_pool, region + LEN, LEN, 1, 6, 65536), FV_OK);
  ANSWERS(fv_pool_attach(&other_pool, &none), FV_OK);
  CHECK(fv_allocator_stat(&a, FV_ALLOCATOR_NUMBER) == fv_allocator_stat(&none, FV_ALLOCATOR_NUMBER));
  ANSWERS(fv_alloc(&a, &buf, 64), FV_OK);
  unsigned char *at = buf.at;
  ANSWERS(fv_free(&none, &buf), FV_STRANGER);
  CHECK(buf.at == at && fv_buf_capacity(&buf) == 64 && fv_allocator_stat(&none, FV_ALLOCATOR_FREED) == 0);

  ANSWERS(fv_burst_open(&a, &burst, 8), FV_OK);
  ANSWERS(fv_burst_fill(&a, &burst, 64, 3), FV_OK);
  ANSWERS(fv_burst_fill(&none, &burst, 64, 1), FV_STRANGER);
  ANSWERS(fv_burst_free(&none, &burst), FV_STRANGER);
  ANSWERS(fv_alloc(&none, &second, 64), FV_OK);
  ANSWERS(fv_burst_push(&burst, &second), FV_STRANGER);
  CHECK(fv_burst_len(&burst) == 3 && fv_buf_capacity(&second) == 64);
  ANSWERS(fv_free(&a, &second), FV_STRANGER);
  ANSWERS(fv_free(&none, &second), FV_OK);
  ANSWERS(fv_burst_pop(&burst, &second), FV_OK); /* it is of the burst's pool */
  ANSWERS(fv_free(&none, &second), FV_STRANGER);
  ANSWERS(fv_free(&a, &second), FV_OK);
  ANSWERS(fv_free(&none, &second), FV_EMPTY);
  ANSWERS(fv_burst_free(&a, &burst), FV_OK);
  ANSWERS(fv_burst_free(&none, &burst), FV_EMPTY);
  ANSWERS(fv_free(&a, &buf), FV_OK);
  ANSWERS(fv_pool_detach(&other_pool, &none), FV_OK);
  ANSWERS(fv_pool_close(&other_pool), FV_OK);
  close_two(FV_OK);
}

/* A pool that is opened again is another one: it knows no buffer from before, over the same region either. */
static void opened_again(unsigned char *region) {
  open_two(region);
  ANSWERS(fv_alloc(&a, &kept_from_before, 64), FV_OK);
  close_two(FV_AUDIT_MISSING);
  open_two(region);
  ANSWERS(fv_free(&a, &kept_from_before), FV_STRANGER);
  CHECK(fv_buf_capacity(&kept_from_before) == 64);
  close_two(FV_OK);
}

int main(void) {
  unsigned char *region = new_region(2 * CHUNKS), *large = new_region(FV_MOST_CHUNKS + 1);
  fv_pool_init(&pool);
  fv_pool_init(&other_pool);
  fv_allocator_init(&a);
  fv_allocator_init(&b);
  fv_allocator_init(&none);
  fv_buf_init(&buf);
  CHECK(buf.at == NULL);
  fv_buf_init(&second);
  fv_burst_init(&burst);
  sizes_and_words();
  nothing_there();
  open_arguments(region, large);
  attaching(region);
  each_size(region);
  buffers(region);
  bursts(region);
  used_up(region);
  wrong_pool(region);
  missing(region);
  fv_buf_init(&kept_from_before);
  opened_again(region);
  free(region);
  free(large);
  printf("answers: each call answers what fustrevol.h says\n");
  return 0;
}
