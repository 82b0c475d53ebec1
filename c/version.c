/* What the library is called, and what its answers mean. */
#include "fustrevol.h"

const char *fv_version(void) { return FV_VERSION; }

const char *fv_strerror(uint32_t answer) {
  switch (answer) {
  case FV_OK: return "success";
  case FV_TOO_LARGE: return "no size class has so many bytes";
  case FV_USED_UP: return "the pool is used up";
  case FV_NO_MEMORY: return "memory was refused";
  case FV_HOLDS: return "what was to be filled holds something";
  case FV_EMPTY: return "what was to be used holds nothing";
  case FV_STRANGER: return "it belongs to another allocator or pool";
  case FV_FULL: return "there is no room for more, or an allocator is attached";
  case FV_BAD_ARGUMENT: return "a number is out of its range";
  case FV_NO_CHUNK: return "every chunk is drawn, and none for this size";
  case FV_AUDIT_STRANGER: return "the audit found a slot of a chunk that nobody drew";
  case FV_AUDIT_DOUBLED: return "the audit found a slot twice";
  case FV_AUDIT_MISSING: return "the audit misses a slot: its buffer was not freed";
  case FV_AUDIT_NO_MEMORY: return "memory for the audit was refused";
  default: return "unknown answer";
  }
}
