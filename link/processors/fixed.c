/* A heap that moves nothing: with PORTABLE_PAGES_AT_OPENING no node asks for its memory anew. Linked with --wrap=rattle_realloc. */
#include "sandbarstove_heap.h"

#include <stdlib.h>

rattle_block __wrap_rattle_realloc(void *block, size_t kept, size_t size, size_t align);

rattle_block __wrap_rattle_realloc(void *block, size_t kept, size_t size, size_t align) {
  (void)block, (void)kept, (void)size, (void)align;
  abort();
}
