/* Where the library takes memory: malloc, realloc and free of the program.
 *
 * The proved library calls these three. A block is `size` bytes, aligned to `align`, a power of two. An
 * answer is a pair: whether the memory was granted, and where it is; where it was refused, the address may
 * not be used, and is not null. A block of no bytes is one of `align` bytes here. */
#include <stdbool.h>
#include <stddef.h>
#include <stdint.h>
#include <stdlib.h>
#include <string.h>

struct heap_answer {
  bool granted;
  void *at;
};

struct heap_answer rattle_alloc(size_t size, size_t align);
struct heap_answer rattle_realloc(void *at, size_t old_size, size_t size, size_t align);
void rattle_dealloc(void *at);

static unsigned char nowhere;

static struct heap_answer answer(void *at) {
  struct heap_answer found = {at != NULL, at != NULL ? at : &nowhere};
  return found;
}

static int malloc_aligns(size_t align) { return align <= _Alignof(max_align_t); }

/* aligned_alloc wants a multiple of the alignment. */
static void *aligned(size_t size, size_t align) {
  if (size > SIZE_MAX - (align - 1)) return NULL;
  return aligned_alloc(align, (size + align - 1) & ~(align - 1));
}

struct heap_answer rattle_alloc(size_t size, size_t align) {
  size_t bytes = size > 0 ? size : align;
  return answer(malloc_aligns(align) ? malloc(bytes) : aligned(bytes, align));
}

struct heap_answer rattle_realloc(void *at, size_t old_size, size_t size, size_t align) {
  size_t bytes = size > 0 ? size : align;
  if (malloc_aligns(align)) return answer(realloc(at, bytes));
  void *moved = aligned(bytes, align);
  if (moved != NULL) {
    memcpy(moved, at, old_size < size ? old_size : size);
    free(at);
  }
  return answer(moved);
}

void rattle_dealloc(void *at) { free(at); }
