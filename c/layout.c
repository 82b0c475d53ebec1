/* What the header and the proved library have to agree on. Compiled with the library; it has no code.
 * tests/answers.c asks the library for its own sizes. */
#include "fustrevol.h"

_Static_assert(sizeof(void *) == 8 && sizeof(size_t) == 8, "the library is built for machines of 64 bits");
_Static_assert(sizeof(fv_pool) == FV_POOL_BYTES && _Alignof(fv_pool) == 16, "fv_pool");
_Static_assert(sizeof(fv_allocator) == FV_ALLOCATOR_BYTES && _Alignof(fv_allocator) == 16, "fv_allocator");
_Static_assert(sizeof(fv_burst) == FV_BURST_BYTES && _Alignof(fv_burst) == 16, "fv_burst");
_Static_assert(sizeof(fv_buf) == 32 && offsetof(fv_buf, at) == 0, "fv_buf");
_Static_assert(sizeof(fv_span) == 16 && offsetof(fv_span, at) == 0 && offsetof(fv_span, len) == 8,
               "fv_span");
_Static_assert(sizeof(enum fv_answer) <= sizeof(uint32_t), "answers are numbers of 32 bits");
