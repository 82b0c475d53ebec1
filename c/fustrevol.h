/* fustrevol.h: a pool of buffers for threads that hand buffers to one another.
 *
 * For who calls the pool from C or C++. README.md beside this file has the commands and the limits.
 *
 * A program lends the pool one region of bytes. Each thread attaches an allocator, and allocates and frees
 * there. A buffer is a slice of the region, of 16 to 512 bytes, and no two buffers share a byte. A buffer
 * may be freed at any allocator of its pool: it goes home to the one that lent it, in batches, without a
 * copy. No call waits for another thread or takes a lock.
 *
 *     #include <fustrevol.h>
 *     #include <stdio.h>
 *     #include <string.h>
 *
 *     static _Alignas(16) unsigned char region[1 << 20];
 *
 *     int main(void) {
 *       static fv_pool pool;
 *       static fv_allocator mine;
 *       fv_buf line;
 *
 *       fv_pool_init(&pool);                                     // each object is initialised once
 *       fv_allocator_init(&mine);
 *       fv_buf_init(&line);
 *
 *       uint32_t answer = fv_pool_open(&pool, region, sizeof region, 1, 6, 65536);
 *       if (answer == FV_OK) answer = fv_pool_attach(&pool, &mine);
 *       if (answer == FV_OK) answer = fv_alloc(&mine, &line, 32);
 *       if (answer != FV_OK) {
 *         fprintf(stderr, "%s\n", fv_strerror(answer));
 *         return 1;
 *       }
 *       strcpy((char *)line.at, "a line of text");               // line.at: the bytes, until line is freed
 *       puts((char *)line.at);
 *       fv_free(&mine, &line);                                   // at any allocator of the pool, on any thread
 *
 *       fv_pool_detach(&pool, &mine);
 *       answer = fv_pool_close(&pool);                           // counts each slot of the region
 *       printf("audit: %s\n", fv_strerror(answer));
 *       return answer != FV_OK;
 *     }
 *
 * OBJECTS. Pools, allocators, buffers and bursts lie in storage of the caller, as a pthread_mutex_t does.
 * What an object holds is moved by copying the object's bytes, by `=` or memcpy; from then on only the new
 * copy may be used. An object that was initialised may be used in any order of calls: a call that makes no
 * sense is refused, and changes nothing.
 *
 * ANSWERS. Calls that can fail answer an uint32_t, which is FV_OK (0) or says why nothing was lent or freed.
 * Each is listed with its call. An allocator may have taken or posted batches before. fv_burst_fill alone may
 * do a part, and an answer FV_AUDIT_.. of fv_pool_close has closed the pool.
 *
 * THREADS. Calls on different objects may be made at the same time. A call uses just the objects that its
 * arguments point to: fv_free uses the allocator that frees, and not the one that lent. fv_pool_ calls of
 * one pool are one at a time. A program whose threads come and go has a lock around them. The allocators of
 * the pool may be used meanwhile.
 *
 * WAITING. An allocator caches what it frees for others, until its cache has more than the pool's limit, and
 * for 1,024 buffers at most. A thread that is about to wait for another one calls fv_flush first: the other
 * may need just these buffers.
 * A thread that is answered FV_USED_UP calls fv_collect from time to time, or waits until another thread
 * tells it that it flushed. Chunks of 4,096 bytes stay with the allocator and the size class that drew
 * them, until the pool is closed. So after FV_NO_CHUNK waiting doesn't help.
 *
 * WHAT THE LIBRARY PROMISES. It is written in Rattle. Where the caller keeps the rules below, these are
 * proved, in the contracts of the calls:
 *   - every call returns, has no undefined behaviour, and leaves in each object a valid value of its type;
 *   - fv_alloc: after FV_OK, `buf`, which held none, holds a buffer whose capacity is at least `size`;
 *     after any other answer, `buf` is as it was;
 *   - fv_free: after FV_OK, `buf` holds no buffer; after any other answer, it is as it was;
 *   - what is of another pool is refused with FV_STRANGER, by every call that takes it back;
 *   - fv_buf_capacity, fv_buf_len and fv_buf_set_len tell and change what they say, and nothing else;
 *   - fv_pool_open: after FV_OK, no two allocators have the same number; after any other answer, the pool
 *     is as it was;
 *   - fv_pool_attach and fv_pool_detach: after FV_OK, one allocator has moved from the pool to `allocator`,
 *     or back with its chunks; after any other answer, the pool has those that it had;
 *   - fv_pool_close: after FV_OK, an audit found each slot of each chunk that the allocators drew, once, and
 *     no other one; after FV_EMPTY and FV_FULL, the pool is as it was;
 *   - fv_burst_open, fv_burst_fill, fv_burst_push, fv_burst_pop, fv_burst_free: after FV_OK, the buffers that
 *     came are at the burst's end, or the last one, or all, left it; after any other answer, fv_burst_fill
 *     aside, the burst is as it was. What fv_burst_fill lent before it stopped is at the burst's end.
 *     fv_burst_len tells how many a burst has, and fv_burst_at how many bytes each of them;
 *   - nothing is lost at an allocator, and nothing is there twice: slot by slot, what it has, posted and lent
 *     is what it drew, took and what was freed to it;
 *   - fv_flush and fv_collect keep the allocator, its chunks and its counts of what was lent and freed.
 *     fv_flush posts all that is cached, but what an inbox has no room for. fv_collect answers FV_OK where one
 *     to 64 batches came, and else moves no slot;
 *   - fv_pool_stat and fv_allocator_stat tell what the library counted (FV_ALLOCATOR_STOCK aside), and
 *     change nothing; FV_ALLOCATOR_LENT and FV_ALLOCATOR_FREED count the buffers, modulo 2^64;
 *   - a buffer's bytes are lent to nobody else until it is freed.
 *
 * These are true by how the library is built, and tested:
 *   - `at` and fv_burst_at tell where a buffer's bytes lie;
 *   - the library counts what fv_allocator_stat says of batches and chunks;
 *   - each fv_pool_open gives the pool a number of its own, by which its allocators know what is theirs;
 *   - what one allocator posted comes to the other, so that fv_pool_close answers FV_OK where all buffers
 *     were freed;
 *   - after fv_pool_close the region is the caller's again, as the call says.
 *
 * WHAT THE CALLER KEEPS. No proof sees these rules, and breaking one of them is undefined behaviour, except
 * for the last one:
 *   - Each object is initialised before its first use, in storage of the type's size, aligned to 16 bytes
 *     (fv_buf: 8 bytes).
 *   - One call at a time on one object. An object goes to another thread by a mutex, by starting or joining
 *     a thread, or by a sequentially consistent atomic. This holds for calls whose argument is `const` too.
 *   - One copy of an object is used: the latest. A buffer's bytes are used only until it is freed.
 *   - The region is used only through its buffers, from fv_pool_open on.
 *   - malloc, realloc and free are not replaced by others while a pool is open. No call comes from a signal
 *     handler, nor from a forked child of a process with threads.
 *   - An object that holds something is neither initialised again nor let go. Else what it holds is lost.
 *     The audit tells. */
#ifndef FUSTREVOL_H
#define FUSTREVOL_H

#include <stddef.h>
#include <stdint.h>

#define FV_VERSION_MAJOR 0
#define FV_VERSION_MINOR 1
#define FV_VERSION_PATCH 0
#define FV_VERSION "0.1.0"

#ifdef __cplusplus
#define FV_ALIGNED alignas(16)
#define FV_RESTRICT __restrict
#define FV_NOEXCEPT noexcept
extern "C" {
#else
#define FV_ALIGNED _Alignas(16)
#define FV_RESTRICT restrict
#define FV_NOEXCEPT
#endif

/* ---- Answers ---- */

enum fv_answer {
  FV_OK = 0,
  FV_TOO_LARGE = 1,    /* no size class has so many bytes: more than FV_LARGEST were asked for */
  FV_USED_UP = 2,      /* no slot of the class is at home, none came, and no chunk is left; one may come */
  FV_NO_MEMORY = 3,    /* malloc refused what the library keeps its records in */
  FV_HOLDS = 4,        /* what was to be filled holds something: free it, or hand it on, first */
  FV_EMPTY = 5,        /* what was to be used holds nothing */
  FV_STRANGER = 6,     /* it belongs to another allocator, or another pool */
  FV_FULL = 7,         /* there is no room for more; of fv_pool_close: an allocator is attached */
  FV_BAD_ARGUMENT = 8, /* a number is out of its range */
  FV_NO_CHUNK = 9,     /* the same, but none will ever come: this allocator drew no chunk for the class */

  /* Answers of fv_pool_close alone. The pool is closed. fv_pool_stat(pool, FV_POOL_FAULT) names the slot. */
  FV_AUDIT_STRANGER = 101, /* a slot was found of a chunk that nobody drew: a rule above was broken */
  FV_AUDIT_DOUBLED = 102,  /* a slot was found twice: a rule above was broken */
  FV_AUDIT_MISSING = 103,  /* a slot was not found: its buffer was not freed */
  FV_AUDIT_NO_MEMORY = 104 /* malloc refused what the audit needs: it says nothing */
};

/* What an answer means, in English: a string that is always there. Of any other number: "unknown answer". */
const char *fv_strerror(uint32_t answer) FV_NOEXCEPT;

/* The version of the library that is linked; FV_VERSION is that of this header. */
const char *fv_version(void) FV_NOEXCEPT;

/* ---- Objects ---- */

#define FV_POOL_BYTES 128
#define FV_ALLOCATOR_BYTES 8192
#define FV_BURST_BYTES 64

#define FV_LARGEST 512        /* bytes of the largest buffer */
#define FV_CHUNK 4096         /* bytes of a chunk, of which a region has 1 to FV_MOST_CHUNKS */
#define FV_MOST_CHUNKS 1024   /* what is behind the last whole chunk is not used */
#define FV_MOST_ALLOCATORS 64 /* of one pool */
#define FV_MOST_LIMIT 1048576 /* bytes */

/* A pool, open or closed. */
typedef struct fv_pool {
  FV_ALIGNED unsigned char own_[FV_POOL_BYTES];
} fv_pool;

/* What a thread holds: an allocator of a pool, or none. */
typedef struct fv_allocator {
  FV_ALIGNED unsigned char own_[FV_ALLOCATOR_BYTES];
} fv_allocator;

/* A buffer, or none. Its fv_buf_capacity() bytes lie at `at`, which is NULL where there is none. They start
 * at a multiple of 16 from the region's start. */
typedef struct fv_buf {
  unsigned char *at;
  void *own_[3];
} fv_buf;

/* Buffers of one allocator that are handed over and freed as a whole, or none. */
typedef struct fv_burst {
  FV_ALIGNED unsigned char own_[FV_BURST_BYTES];
} fv_burst;

/* Where the bytes of a buffer lie. */
typedef struct fv_span {
  unsigned char *at;
  size_t len;
} fv_span;

/* The bytes that the library that is linked uses of each: at most the size of the type. For other
 * languages' bindings. */
size_t fv_pool_size(void) FV_NOEXCEPT;
size_t fv_allocator_size(void) FV_NOEXCEPT;
size_t fv_buf_size(void) FV_NOEXCEPT;
size_t fv_burst_size(void) FV_NOEXCEPT;

/* Each makes an object in storage that holds none: a closed pool, no allocator, no buffer, no burst. They
 * take no memory, and what they made needn't be ended where it holds nothing. */
void fv_pool_init(fv_pool *pool) FV_NOEXCEPT;
void fv_allocator_init(fv_allocator *allocator) FV_NOEXCEPT;
void fv_buf_init(fv_buf *buf) FV_NOEXCEPT;
void fv_burst_init(fv_burst *burst) FV_NOEXCEPT;

/* ---- Pools: one call at a time on one pool ---- */

/* Opens a pool over the `len` bytes at `region`. It has `allocators` allocators, 1 to 64, none of them
 * attached.
 *
 * `limit`: how many bytes an allocator caches for others before it posts them, at most 1,048,576. A good one
 * is the allocator's part of a quarter of the region, and no more than 262,144.
 *
 * `bits`: how an allocator's number is read on a buffer's way home, in digits of 1 to 6 bits. With 6, every
 * buffer goes home directly. With fewer, allocators pass batches on for others, so that each sends fewer
 * and larger ones.
 *
 * Takes some 40 bytes of memory for each chunk, 10 KB for each allocator, and 2.3 KB for each pair of them:
 * 10 MB for 64 allocators. No byte of the region is written. The pool is another one than each before it: it
 * takes no buffer back that an earlier one over the same region lent.
 *
 * FV_OK
 * FV_HOLDS         the pool is open
 * FV_BAD_ARGUMENT  allocators, bits or limit are out of range, or the region has no whole chunk, or over 1,024
 * FV_NO_MEMORY     the pool is closed, and the region is the caller's */
uint32_t fv_pool_open(fv_pool *FV_RESTRICT pool, void *FV_RESTRICT region, size_t len, uint32_t allocators,
                      uint32_t bits, uint64_t limit) FV_NOEXCEPT;

/* Attaches one of the pool's allocators that nobody holds. It goes on where it was when it was detached:
 * its chunks are its own. A thread may hold more than one. An attached allocator may also be handed to
 * another thread, as any object.
 *
 * FV_OK
 * FV_HOLDS  `allocator` holds one
 * FV_EMPTY  all of the pool's allocators are attached, or the pool is closed */
uint32_t fv_pool_attach(fv_pool *FV_RESTRICT pool, fv_allocator *FV_RESTRICT allocator) FV_NOEXCEPT;

/* Gives an allocator back. It takes what came home, posts what it can, and keeps the rest of its cache for
 * who attaches it next, or for fv_pool_close. Its buffers stay lent.
 *
 * FV_OK
 * FV_EMPTY      `allocator` holds none
 * FV_STRANGER   this one is of another pool
 * FV_NO_MEMORY  `allocator` holds it still */
uint32_t fv_pool_detach(fv_pool *FV_RESTRICT pool, fv_allocator *FV_RESTRICT allocator) FV_NOEXCEPT;

/* Closes a pool whose allocators are all detached. What was freed goes home; then the audit looks for each
 * slot of each chunk that was drawn, once. Takes time for each slot.
 *
 * After that the region is the caller's again, but for the bytes of buffers that were not freed. They can't
 * be freed any more. All memory that the pool took is given back, but for the records of such buffers. A
 * closed pool may be opened again.
 *
 * FV_OK                each slot was found once: all buffers were freed
 * FV_EMPTY             the pool is closed
 * FV_FULL              an allocator is attached: the pool is open as before
 * FV_AUDIT_STRANGER, FV_AUDIT_DOUBLED, FV_AUDIT_MISSING, FV_AUDIT_NO_MEMORY  the pool is closed */
uint32_t fv_pool_close(fv_pool *pool) FV_NOEXCEPT;

/* A number about a pool; UINT64_MAX of any other `which`. */
enum fv_pool_number {
  FV_POOL_ALLOCATORS = 0, /* how many allocators it has; 0 where it is closed */
  FV_POOL_IDLE = 1,       /* how many of them nobody holds */
  FV_POOL_FAULT = 2 /* the slot that the last audit named: 256 * chunk + the slot's index in the chunk */
};
uint64_t fv_pool_stat(const fv_pool *pool, uint32_t which) FV_NOEXCEPT;

/* ---- Allocators and buffers ---- */

/* Lends a buffer of the least size class that has `size` bytes; of a size of 0, of the first. The classes
 * are 16, 32, 48, 64, 80, 96, 112, 128, 160, 192, 224, 256, 320, 384, 448 and 512 bytes. The bytes are as
 * they were left; fv_buf_len() is 0. A slot's first use takes memory, some 200 bytes, which it keeps until
 * the pool is closed.
 *
 * FV_OK
 * FV_TOO_LARGE  size is more than FV_LARGEST
 * FV_USED_UP    no slot of the class is at home, none came, and the region has no chunk left
 * FV_NO_CHUNK   the same, and this allocator drew no chunk for the class: waiting doesn't help
 * FV_NO_MEMORY
 * FV_HOLDS      `buf` holds a buffer
 * FV_EMPTY      `allocator` holds none */
uint32_t fv_alloc(fv_allocator *FV_RESTRICT allocator, fv_buf *FV_RESTRICT buf, size_t size) FV_NOEXCEPT;

/* Frees a buffer of any allocator of the pool. One that this allocator lent is at home at once. One of
 * another allocator is cached, and posted with others once the cache has more than the limit, and at the
 * latest after 1,024 buffers that were freed here.
 *
 * FV_OK
 * FV_EMPTY     `allocator` holds none, or `buf` holds none: it was freed, pushed or never lent
 * FV_STRANGER  the buffer is of another pool */
uint32_t fv_free(fv_allocator *FV_RESTRICT allocator, fv_buf *FV_RESTRICT buf) FV_NOEXCEPT;

/* Takes what came home, as fv_collect does, then posts all that is cached. Where the inbox of another
 * allocator is full (15 or 16 batches of this one that it has not taken), what goes there stays cached, and
 * holds back nothing else: FV_ALLOCATOR_CACHED tells how much.
 *
 * FV_OK
 * FV_EMPTY  `allocator` holds none */
uint32_t fv_flush(fv_allocator *allocator) FV_NOEXCEPT;

/* Takes what came home, at most 64 batches, and no further one once 1,024 buffers came. fv_alloc does so by
 * itself where it finds no slot, and once in 64 calls.
 *
 * FV_OK     something came; with fewer than 6 bits, it may be what is to be passed on
 * FV_EMPTY  nothing came, or `allocator` holds none */
uint32_t fv_collect(fv_allocator *allocator) FV_NOEXCEPT;

/* A number about an allocator; UINT64_MAX of any other `which`, and where `allocator` holds none. The
 * counts begin at fv_pool_open. */
enum fv_allocator_number {
  FV_ALLOCATOR_NUMBER = 0,       /* its own, from 0 on */
  FV_ALLOCATOR_LENT = 1,         /* buffers lent here, bursts' among them */
  FV_ALLOCATOR_FREED = 2,        /* buffers freed here, its own and others' */
  FV_ALLOCATOR_POSTED = 3,       /* batches posted to others */
  FV_ALLOCATOR_TAKEN = 4,        /* batches taken from its inbox */
  FV_ALLOCATOR_CHUNKS = 5,       /* chunks that it drew */
  FV_ALLOCATOR_HOME = 6,         /* slots at home now (counted by a walk over them) */
  FV_ALLOCATOR_CACHED = 7,       /* others' buffers in its cache now (counted by a walk over them) */
  FV_ALLOCATOR_CACHED_BYTES = 8, /* their bytes */
  FV_ALLOCATOR_STOCK = 9         /* chunks of the region, drawn or not */
};
uint64_t fv_allocator_stat(const fv_allocator *allocator, uint32_t which) FV_NOEXCEPT;

/* The size of a buffer's class in bytes; 0 where `buf` holds none. */
size_t fv_buf_capacity(const fv_buf *buf) FV_NOEXCEPT;

/* How many bytes of a buffer are filled, as fv_buf_set_len said last. The number goes where the buffer
 * goes, through bursts too. 0 where `buf` holds none. */
size_t fv_buf_len(const fv_buf *buf) FV_NOEXCEPT;

/* Says how many bytes are filled, from the first on. No byte is written.
 *
 * FV_OK
 * FV_FULL   `len` is more than fv_buf_capacity(): nothing is changed
 * FV_EMPTY  `buf` holds none */
uint32_t fv_buf_set_len(fv_buf *buf, size_t len) FV_NOEXCEPT;

/* ---- Bursts: to free a burst costs, as a rule, as much as to free one buffer ---- */

/* Opens an empty burst for at least `places` buffers of this allocator, in an object that holds no burst or
 * an empty one. Takes memory where no earlier burst's can be used again.
 *
 * FV_OK
 * FV_HOLDS      the burst has a buffer
 * FV_NO_MEMORY
 * FV_EMPTY      `allocator` holds none */
uint32_t fv_burst_open(fv_allocator *FV_RESTRICT allocator, fv_burst *FV_RESTRICT burst,
                       size_t places) FV_NOEXCEPT;

/* Lends `count` buffers more into a burst, each as fv_alloc does. Where it stops early, those that were
 * lent until then are in the burst: fv_burst_len() tells how many.
 *
 * FV_OK        all of them
 * FV_FULL      there was no place left
 * FV_TOO_LARGE, FV_USED_UP, FV_NO_CHUNK, FV_NO_MEMORY  as fv_alloc
 * FV_STRANGER  another allocator opened the burst, of this pool or another
 * FV_EMPTY     the burst is not open, or `allocator` holds none */
uint32_t fv_burst_fill(fv_allocator *FV_RESTRICT allocator, fv_burst *FV_RESTRICT burst, size_t size,
                       size_t count) FV_NOEXCEPT;

/* Frees all buffers of a burst, at any allocator of the pool, and ends the burst; an empty one too.
 *
 * FV_OK
 * FV_EMPTY     the burst is not open, or `allocator` holds none
 * FV_STRANGER  the burst is of another pool */
uint32_t fv_burst_free(fv_allocator *FV_RESTRICT allocator, fv_burst *FV_RESTRICT burst) FV_NOEXCEPT;

/* Puts a buffer to the end of a burst; `buf` holds none then.
 *
 * FV_OK
 * FV_FULL      there is no place left
 * FV_STRANGER  the buffer is not of the allocator that opened the burst, or of another pool
 * FV_EMPTY     the burst is not open, or `buf` holds no buffer */
uint32_t fv_burst_push(fv_burst *FV_RESTRICT burst, fv_buf *FV_RESTRICT buf) FV_NOEXCEPT;

/* Takes the last buffer out of a burst.
 *
 * FV_OK
 * FV_HOLDS  `buf` holds a buffer
 * FV_EMPTY  the burst has no buffer, or is not open */
uint32_t fv_burst_pop(fv_burst *FV_RESTRICT burst, fv_buf *FV_RESTRICT buf) FV_NOEXCEPT;

/* How many buffers a burst has; 0 where it is not open. */
uint64_t fv_burst_len(const fv_burst *burst) FV_NOEXCEPT;

/* Tells where the bytes of a buffer of the burst lie, all of its class, to be read and written until the
 * buffer is freed or popped. `span` has a value before: fv_span span = {0};
 *
 * FV_OK
 * FV_EMPTY  the burst has no buffer at `index`, or is not open: `span` is as it was */
uint32_t fv_burst_at(const fv_burst *FV_RESTRICT burst, fv_span *FV_RESTRICT span,
                     size_t index) FV_NOEXCEPT;

#ifdef __cplusplus
}
#endif
#endif
