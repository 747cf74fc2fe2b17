/* Where the memory of a node of the C source is: for link/upsets.c, in place of host.c, which this file begins with. */
#include "host.c"

#include "upsets.h"

enum { HEAD = 16, OWN_STACK = SANDBAR_STACK, MOST_FREE = 1024 };

/* The free blocks of the heap inside (link/processors/inside.c): a circle, into which a block leads that was just given back.
 * The one that has no bytes is the circle's first, and lies outside of the heap. */
static uint32_t free_blocks(module *it, uint64_t *free_at) {
  uint64_t given = Z_sandbarZ_malloc(it, 1);
  if (given == 0) return 0;
  Z_sandbarZ_free(it, given);
  uint64_t first = number(it, given - HEAD, 8), at = first;
  uint32_t count = 0;
  do {
    if (number(it, at + 8, 8) != 0 && count < MOST_FREE) free_at[count++] = at;
    at = number(it, at, 8);
  } while (at != first);
  return count;
}

static bool is_free(uint64_t at, const uint64_t *free_at, uint32_t count) {
  for (uint32_t k = 0; k < count; k += 1)
    if (free_at[k] == at) return true;
  return false;
}

int find_module_memory(const sandbar_node *node, struct module_memory *memory) {
  static uint64_t free_at[MOST_FREE];
  struct inside *inside = inside_of(node);
  module *it = &inside->it;
  uint64_t size = Z_sandbarZ_memory(it)->size, begin = size, units = 0;
  uint8_t *data = Z_sandbarZ_memory(it)->data;
  uint32_t count = free_blocks(it, free_at);
  for (uint32_t k = 0; k < count; k += 1)
    if (free_at[k] < begin) begin = free_at[k];
  memory->instance = (struct part){(uint8_t *)inside, sizeof *inside};
  memory->own_stack = (struct part){data, OWN_STACK};
  memory->constants = (struct part){data + OWN_STACK, (uint32_t)begin - OWN_STACK};
  memory->block_count = memory->head_count = 0;
  for (uint64_t at = begin; at < size; at += units * HEAD) {
    units = number(it, at + 8, 8);
    if (units == 0 || units > (size - at) / HEAD || memory->head_count == 8192 || memory->block_count == 4096) return 0;
    memory->heads[memory->head_count++] = data + at;
    struct part block = {data + at + HEAD, (uint32_t)(units - 1) * HEAD};
    if (!is_free(at, free_at, count)) memory->blocks[memory->block_count++] = block;
  }
  return count != 0;
}
