/* Random calls on one thread against a model: who holds which bytes, what each call has to answer, what was
 * counted. model [FIRST SEED] [SEEDS] [STEPS OF EACH] */
#include "holders.h"
#include <string.h>

enum { MOST = 8, PLACES = 48, BURSTS = 6, BURST = 12, CHUNKS = 256 };

/* A buffer as the model knows it; capacity 0: none. */
typedef struct {
  unsigned char *at;
  size_t capacity, len;
  uint64_t owner;
  uint32_t seed;
} known;

typedef struct {
  fv_buf buf;
  known is;
} place;

typedef struct {
  fv_burst burst;
  int open;
  size_t places, count;
  uint64_t owner;
  known is[BURST];
} parcel;

typedef struct {
  fv_allocator allocator;
  int attached;
  uint64_t number;
} holder;

static unsigned char *region;
static size_t chunks;
static holders held;
static fv_pool pool;
static uint32_t allocators;
static holder holder_of[MOST];
static place places[PLACES];
static parcel parcels[BURSTS];
static uint64_t lent[MOST], freed[MOST]; /* by an allocator's number */
static uint64_t state;
fv_buf
    forgotten_bufs[4096]; /* not static, so that it is kept, and a leak detector sees other leaks alone */
static size_t forgotten_count;

static void check_counts(void) {
  uint64_t drawn = 0;
  uint32_t idle = allocators;
  for (uint32_t i = 0; i < allocators; i++) {
    holder *h = &holder_of[i];
    if (!h->attached) continue;
    idle--;
    drawn += fv_allocator_stat(&h->allocator, FV_ALLOCATOR_CHUNKS);
    CHECK(fv_allocator_stat(&h->allocator, FV_ALLOCATOR_NUMBER) == h->number);
    CHECK(fv_allocator_stat(&h->allocator, FV_ALLOCATOR_LENT) == lent[h->number]);
    CHECK(fv_allocator_stat(&h->allocator, FV_ALLOCATOR_FREED) == freed[h->number]);
  }
  CHECK(drawn <= chunks && fv_pool_stat(&pool, FV_POOL_IDLE) == idle);
}

/* Whether the pool may say that it is used up: all chunks were drawn, by those attached and by those that
 * are not. */
static void check_used_up(void) {
  uint64_t drawn = 0;
  for (uint32_t i = 0; i < allocators; i++) {
    if (!holder_of[i].attached) return; /* what an idle one drew cannot be asked */
    drawn += fv_allocator_stat(&holder_of[i].allocator, FV_ALLOCATOR_CHUNKS);
  }
  CHECK(drawn == chunks);
}

static known now_lent(holder *h, unsigned char *at, size_t capacity) {
  known is = {at, capacity, 0, h->number, (uint32_t)next_number(&state)};
  lend(&held, at, capacity, is.seed);
  return is;
}

static void one_alloc(holder *h, place *p) {
  size_t size = below(&state, FV_LARGEST + 24);
  fv_buf before = p->buf;
  uint32_t answer = fv_alloc(&h->allocator, &p->buf, size);
  if (answer != FV_OK) CHECK(memcmp(&before, &p->buf, sizeof before) == 0 || p->is.capacity == 0);
  if (!h->attached) ANSWERS(answer, FV_EMPTY);
  else if (p->is.capacity > 0) ANSWERS(answer, FV_HOLDS);
  else if (size > FV_LARGEST) ANSWERS(answer, FV_TOO_LARGE);
  else if (answer == FV_USED_UP || answer == FV_NO_CHUNK) check_used_up();
  else {
    ANSWERS(answer, FV_OK);
    CHECK(fv_buf_capacity(&p->buf) == class_size(size));
    p->is = now_lent(h, p->buf.at, class_size(size));
    lent[h->number]++;
  }
}

static void one_free(holder *h, place *p) {
  int works = h->attached && p->is.capacity > 0;
  if (works) unlend(&held, p->is.at, p->is.capacity, p->is.seed);
  ANSWERS(fv_free(&h->allocator, &p->buf), works ? FV_OK : FV_EMPTY);
  if (works) {
    p->is = (known){0};
    freed[h->number]++;
  }
}

static void one_len(place *p) {
  size_t len = below(&state, FV_LARGEST + 24);
  uint32_t expected = p->is.capacity == 0 ? FV_EMPTY : len > p->is.capacity ? FV_FULL : FV_OK;
  ANSWERS(fv_buf_set_len(&p->buf, len), expected);
  if (expected == FV_OK) p->is.len = len;
}

static void one_move(place *p, place *q) {
  place kept = *p;
  *p = *q;
  *q = kept;
}

static void one_burst_open(holder *h, parcel *b) {
  size_t wanted = 1 + below(&state, BURST);
  uint32_t expected = !h->attached ? FV_EMPTY : b->open && b->count > 0 ? FV_HOLDS : FV_OK;
  ANSWERS(fv_burst_open(&h->allocator, &b->burst, wanted), expected);
  if (expected != FV_OK) return;
  b->open = 1;
  b->places = wanted; /* at least: an array that is kept may have room for more */
  b->owner = h->number;
}

static void one_burst_fill(holder *h, parcel *b) {
  size_t size = below(&state, FV_LARGEST + 1), room = b->places - b->count,
         wanted = b->open ? below(&state, room + 1) : 1;
  uint32_t answer = fv_burst_fill(&h->allocator, &b->burst, size, wanted);
  if (!h->attached || !b->open) ANSWERS(answer, FV_EMPTY);
  else if (b->owner != h->number) ANSWERS(answer, FV_STRANGER);
  else if (answer == FV_USED_UP || answer == FV_NO_CHUNK) check_used_up();
  else ANSWERS(answer, FV_OK);
  size_t there = fv_burst_len(&b->burst);
  CHECK(there >= b->count && there <= b->count + wanted && (answer != FV_OK || there == b->count + wanted));
  for (; b->count < there; b->count++) {
    fv_span span = {0};
    ANSWERS(fv_burst_at(&b->burst, &span, b->count), FV_OK);
    CHECK(span.len == class_size(size));
    b->is[b->count] = now_lent(h, span.at, span.len);
    lent[h->number]++;
  }
}

static void one_burst_push(parcel *b, place *p) {
  uint32_t answer;
  if (b->open && b->count == b->places) return; /* whether there is room for one more is not told */
  answer = fv_burst_push(&b->burst, &p->buf);
  if (!b->open || p->is.capacity == 0) ANSWERS(answer, FV_EMPTY);
  else if (p->is.owner != b->owner) ANSWERS(answer, FV_STRANGER);
  else {
    ANSWERS(answer, FV_OK);
    b->is[b->count++] = p->is;
    p->is = (known){0};
  }
}

static void one_burst_pop(parcel *b, place *p) {
  uint32_t expected = p->is.capacity > 0 ? FV_HOLDS : b->count == 0 ? FV_EMPTY : FV_OK;
  ANSWERS(fv_burst_pop(&b->burst, &p->buf), expected);
  if (expected == FV_OK) p->is = b->is[--b->count];
}

static void one_burst_free(holder *h, parcel *b) {
  int works = h->attached && b->open;
  for (size_t i = 0; works && i < b->count; i++)
    unlend(&held, b->is[i].at, b->is[i].capacity, b->is[i].seed);
  ANSWERS(fv_burst_free(&h->allocator, &b->burst), works ? FV_OK : FV_EMPTY);
  if (!works) return;
  freed[h->number] += b->count;
  b->open = 0;
  b->count = b->places = 0;
}

static void one_attach(holder *h) {
  int any = fv_pool_stat(&pool, FV_POOL_IDLE) > 0;
  uint32_t expected = h->attached ? FV_HOLDS : any ? FV_OK : FV_EMPTY;
  ANSWERS(fv_pool_attach(&pool, &h->allocator), expected);
  if (expected != FV_OK) return;
  h->attached = 1;
  h->number = fv_allocator_stat(&h->allocator, FV_ALLOCATOR_NUMBER);
  CHECK(h->number < allocators);
  for (uint32_t i = 0; i < allocators; i++) {
    CHECK(&holder_of[i] == h || !holder_of[i].attached || holder_of[i].number != h->number);
  }
}

static void one_detach(holder *h) {
  ANSWERS(fv_pool_detach(&pool, &h->allocator), h->attached ? FV_OK : FV_EMPTY);
  h->attached = 0;
}

static void check_place(const place *p) {
  CHECK(fv_buf_capacity(&p->buf) == p->is.capacity && fv_buf_len(&p->buf) == p->is.len);
  CHECK(p->is.capacity == 0 || p->buf.at == p->is.at);
  look(p->is.at, p->is.capacity, p->is.seed);
}

static void check_parcel(const parcel *b) {
  CHECK(fv_burst_len(&b->burst) == b->count);
  for (size_t i = 0; i < b->count; i++) {
    fv_span span = {0};
    ANSWERS(fv_burst_at(&b->burst, &span, i), FV_OK);
    CHECK(span.at == b->is[i].at && span.len == b->is[i].capacity);
    look(span.at, span.len, b->is[i].seed);
  }
}

static void step(void) {
  holder *h = &holder_of[below(&state, allocators)];
  place *p = &places[below(&state, PLACES)];
  parcel *b = &parcels[below(&state, BURSTS)];
  size_t what = below(&state, 100);
  if (what < 30) one_alloc(h, p);
  else if (what < 58) one_free(h, p);
  else if (what < 62) one_len(p);
  else if (what < 66) one_move(p, &places[below(&state, PLACES)]);
  else if (what < 70) one_burst_open(h, b);
  else if (what < 75) one_burst_fill(h, b);
  else if (what < 79) one_burst_push(b, p);
  else if (what < 83) one_burst_pop(b, p);
  else if (what < 87) one_burst_free(h, b);
  else if (what < 90) ANSWERS(fv_flush(&h->allocator), h->attached ? FV_OK : FV_EMPTY);
  else if (what < 93) CHECK(fv_collect(&h->allocator) == FV_EMPTY || h->attached);
  else if (what < 95) one_attach(h);
  else if (what < 96) one_detach(h);
  else {
    check_place(p);
    check_parcel(b);
    check_counts();
  }
}

static void begin(uint64_t seed) {
  state = seed * 0x9E3779B97F4A7C15u + 1;
  allocators = 1 + (uint32_t)below(&state, MOST);
  uint32_t bits = 1 + (uint32_t)below(&state, 6);
  uint64_t limit = below(&state, 2) ? below(&state, 4096) : 65536;
  chunks = (size_t[]){4, 40, CHUNKS}[below(&state, 3)];
  memset(lent, 0, sizeof lent);
  memset(freed, 0, sizeof freed);
  ANSWERS(fv_pool_open(&pool, region, chunks * FV_CHUNK, allocators, bits, limit), FV_OK);
  for (uint32_t i = 0; i < allocators; i++) one_attach(&holder_of[i]);
}

/* Frees all but one buffer, where one is to be forgotten, closes the pool, and looks at what the audit
 * says. */
static void end(int forgets) {
  place forgotten = {0};
  for (uint32_t i = 0; i < allocators; i++) {
    if (!holder_of[i].attached) one_attach(&holder_of[i]);
  }
  for (size_t i = 0; i < BURSTS; i++) {
    check_parcel(&parcels[i]);
    one_burst_free(&holder_of[below(&state, allocators)], &parcels[i]);
  }
  for (size_t i = 0; i < PLACES; i++) {
    check_place(&places[i]);
    if (forgets && forgotten.is.capacity == 0 && places[i].is.capacity > 0)
      one_move(&forgotten, &places[i]);
    one_free(&holder_of[below(&state, allocators)], &places[i]);
  }
  check_counts();
  CHECK(count_held(&held) == forgotten.is.capacity / 16);
  for (uint32_t i = 0; i < allocators; i++) one_detach(&holder_of[i]);
  if (forgotten.is.capacity == 0) {
    ANSWERS(fv_pool_close(&pool), FV_OK);
    return;
  }
  size_t offset = (size_t)(forgotten.is.at - region);
  ANSWERS(fv_pool_close(&pool), FV_AUDIT_MISSING);
  CHECK(fv_pool_stat(&pool, FV_POOL_FAULT) ==
        256 * (offset / FV_CHUNK) + offset % FV_CHUNK / forgotten.is.capacity);
  unlend(&held, forgotten.is.at, forgotten.is.capacity, forgotten.is.seed);
  forgotten_bufs[forgotten_count++ % 4096] = forgotten.buf;
}

int main(int argc, char **argv) {
  uint64_t first = argc > 1 ? strtoull(argv[1], NULL, 10) : 1,
           seeds = argc > 2 ? strtoull(argv[2], NULL, 10) : 200;
  size_t steps = argc > 3 ? strtoul(argv[3], NULL, 10) : 10000, made = 0;
  region = new_region(CHUNKS);
  held = new_holders(region, (size_t)CHUNKS * FV_CHUNK);
  fv_pool_init(&pool);
  for (size_t i = 0; i < MOST; i++) fv_allocator_init(&holder_of[i].allocator);
  for (size_t i = 0; i < PLACES; i++) fv_buf_init(&places[i].buf);
  for (size_t i = 0; i < BURSTS; i++) fv_burst_init(&parcels[i].burst);
  for (uint64_t seed = first; seed < first + seeds; seed++) {
    begin(seed);
    for (size_t i = 0; i < steps; i++) step();
    end(seed % 8 == 0);
    for (size_t i = 0; i < MOST; i++) made += lent[i];
  }
  free(held.marks);
  free(region);
  printf(
      "model: %llu seeds, %zu steps each, %zu buffers: all answers, bytes and audits as the model says\n",
      (unsigned long long)seeds, steps, made);
  return 0;
}
