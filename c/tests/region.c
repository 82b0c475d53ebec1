/* What the library does with the region: it cuts it, and leaves its bytes alone. The region of most of
 * these pools cannot even be read; after the close it is taken away while other pools are in use. */
#include "check.h"
#include <sys/mman.h>

enum { CHUNKS = 128, BUFFERS = 200 };
static fv_pool pool;
static fv_allocator a, b;
static fv_buf bufs[BUFFERS];
static fv_burst burst;

/* Uses all calls over a region of so many whole chunks, without a look at its bytes. */
static void use(unsigned char *region, size_t len, uint32_t bits) {
  unsigned char *end = region + len / FV_CHUNK * FV_CHUNK;
  ANSWERS(fv_pool_open(&pool, region, len, 2, bits, 4096), FV_OK);
  ANSWERS(fv_pool_attach(&pool, &a), FV_OK);
  ANSWERS(fv_pool_attach(&pool, &b), FV_OK);
  for (size_t round = 0; round < 4; round++) {
    for (size_t i = 0; i < BUFFERS; i++) {
      size_t size = i * 37 % (FV_LARGEST + 1);
      ANSWERS(fv_alloc(i % 2 ? &a : &b, &bufs[i], size), FV_OK);
      CHECK(bufs[i].at >= region && bufs[i].at + class_size(size) <= end &&
            (size_t)(bufs[i].at - region) % 16 == 0);
      ANSWERS(fv_buf_set_len(&bufs[i], size), FV_OK);
    }
    for (size_t i = 0; i < BUFFERS; i++) ANSWERS(fv_free(i % 3 ? &a : &b, &bufs[i]), FV_OK);
    ANSWERS(fv_burst_open(&a, &burst, 64), FV_OK);
    ANSWERS(fv_burst_fill(&a, &burst, 200, 64), FV_OK);
    ANSWERS(fv_burst_pop(&burst, &bufs[0]), FV_OK);
    ANSWERS(fv_burst_push(&burst, &bufs[0]), FV_OK);
    ANSWERS(fv_burst_free(&b, &burst), FV_OK);
    ANSWERS(fv_flush(&a), FV_OK);
    ANSWERS(fv_flush(&b), FV_OK);
  }
  ANSWERS(fv_pool_detach(&pool, &a), FV_OK);
  ANSWERS(fv_pool_detach(&pool, &b), FV_OK);
  ANSWERS(fv_pool_close(&pool), FV_OK);
}

/* Bytes stay as the program leaves them, through free and close and the next open; all of them are the
 * program's then. */
static void bytes_stay(unsigned char *region, size_t len) {
  use(region, len, 6);
  for (size_t i = 0; i < len; i++) CHECK(region[i] == 0xA5);
  ANSWERS(fv_pool_open(&pool, region, len, 1, 6, 4096), FV_OK);
  ANSWERS(fv_pool_attach(&pool, &a), FV_OK);
  ANSWERS(fv_alloc(&a, &bufs[0], 512), FV_OK);
  unsigned char *at = bufs[0].at;
  for (size_t i = 0; i < 512; i++) at[i] = (unsigned char)i;
  ANSWERS(fv_free(&a, &bufs[0]), FV_OK);
  ANSWERS(fv_pool_detach(&pool, &a), FV_OK);
  ANSWERS(fv_pool_close(&pool), FV_OK);
  for (size_t i = 0; i < len; i++) {
    size_t within = (size_t)(&region[i] - at);
    CHECK(region[i] == (&region[i] >= at && within < 512 ? (unsigned char)within : 0xA5));
  }
  for (size_t i = 0; i < len; i++) region[i] = 0xA5;
}

int main(void) {
  const size_t len = (size_t)CHUNKS * FV_CHUNK;
  fv_pool_init(&pool);
  fv_allocator_init(&a);
  fv_allocator_init(&b);
  for (size_t i = 0; i < BUFFERS; i++) fv_buf_init(&bufs[i]);
  fv_burst_init(&burst);

  unsigned char *closed = mmap(NULL, len, PROT_NONE, MAP_PRIVATE | MAP_ANONYMOUS, -1, 0);
  CHECK(closed != MAP_FAILED);
  use(closed, len, 6);
  use(closed, len, 1);
  use(closed + 1, len - 1, 6); /* it may start anywhere, and end anywhere */
  use(closed + 7, len - 4000, 3);
  CHECK(munmap(closed, len) == 0);

  unsigned char *region = new_region(CHUNKS);
  bytes_stay(region, len);
  bytes_stay(region, len);
  free(region);
  printf("region: no call reads or writes its bytes, and after the close it is the program's\n");
  return 0;
}
