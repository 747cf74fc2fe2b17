/* The heap of the library over malloc, realloc and free: include/sandbarstove_heap.h. */
#include "sandbarstove_heap.h"

#include <stdlib.h>

static rattle_block tried(void *block) {
  static char nowhere;
  return (rattle_block){block != NULL, block != NULL ? block : &nowhere};
}

rattle_block rattle_alloc(size_t size, size_t align) { return tried(malloc(size != 0 ? size : align)); }

rattle_block rattle_realloc(void *block, size_t kept, size_t size, size_t align) {
  (void)kept;
  return tried(realloc(block, size != 0 ? size : align));
}

void rattle_dealloc(void *block) { free(block); }
