/* What the C of wasm2c asks of a host, without an operating system: sandbarstove_heap.h says whence memory comes. */
#include "rt.h"

#include "sandbarstove_heap.h"

#ifndef SANDBAR_TRAP
#include <stdlib.h>

_Noreturn void sandbar_trap(int why) {
  (void)why;
  abort();
}
#endif

enum { PAGE = 65536 };

_Noreturn void wasm_rt_trap(wasm_rt_trap_t why) { sandbar_trap((int)why); }

bool rt_take_memory(wasm_rt_memory_t *memory, uint32_t pages) {
  if (pages > PORTABLE_PAGES) return false;
  rattle_block block = rattle_alloc((size_t)pages * PAGE, 16);
  if (!block.ok) return false;
  memset(block.at, 0, (size_t)pages * PAGE);
  memory->data = block.at;
  memory->pages = pages;
  memory->max_pages = PORTABLE_PAGES;
  memory->size = pages * PAGE;
  return true;
}

/* The module's memory was taken before, maybe with more pages: this is where a refusal could not be told. */
void wasm_rt_allocate_memory(wasm_rt_memory_t *memory, uint32_t pages, uint32_t most) {
  if (memory->pages < pages) sandbar_trap(WASM_RT_TRAP_OOB);
  if (most < memory->max_pages) memory->max_pages = most;
}

uint32_t wasm_rt_grow_memory(wasm_rt_memory_t *memory, uint32_t by) {
  uint32_t before = memory->pages, old = memory->size;
  if (by > memory->max_pages - before) return (uint32_t)-1;
  size_t more = (size_t)by * PAGE;
  rattle_block block = rattle_realloc(memory->data, old, old + more, 16);
  if (!block.ok) return (uint32_t)-1;
  uint8_t *data = block.at;
#if WABT_BIG_ENDIAN
  memmove(data + more, data, old);
  memset(data, 0, more);
#else
  memset(data + old, 0, more);
#endif
  memory->data = data;
  memory->pages = before + by;
  memory->size = memory->pages * PAGE;
  return before;
}

void wasm_rt_free_memory(wasm_rt_memory_t *memory) { rattle_dealloc(memory->data); }
