/* How many bytes of heap a node takes at least: to open, and to serve when its journals are full of the longest writes. The heap
 * here adds nothing to a block, gives so many bytes and no more, and lets a block grow where it lies. A line a node: the bytes of
 * each bank, the entries of its journal, banks, ports, cells, and the two numbers. */
#include "packets.h"
#include "sandbarstove_heap.h"

#include <inttypes.h>
#include <stdbool.h>
#include <stdio.h>
#include <stdlib.h>

static const uint8_t yes[] = IMAGE_OF(0);
static size_t held, limit;

/* In front of each block: its size. */
enum { FRONT = 16 };

static size_t *size_at(void *block) { return (size_t *)(void *)((char *)block - FRONT); }

static bool gives(size_t more) { return more <= limit && held <= limit - more; }

rattle_block rattle_alloc(size_t size, size_t align) {
  static char nothing;
  (void)align;
  char *at = gives(size) ? malloc(size + FRONT) : NULL;
  if (at == NULL) return (rattle_block){false, &nothing};
  *size_at(at + FRONT) = size;
  held += size;
  return (rattle_block){true, at + FRONT};
}

void rattle_dealloc(void *block) {
  held -= *size_at(block);
  free(size_at(block));
}

rattle_block rattle_realloc(void *block, size_t kept, size_t size, size_t align) {
  (void)align;
  char *at = size <= kept || gives(size - kept) ? realloc(size_at(block), size + FRONT) : NULL;
  if (at == NULL) return (rattle_block){false, block};
  *size_at(at + FRONT) = size;
  held = held - kept + size;
  return (rattle_block){true, at + FRONT};
}

typedef struct {
  uint32_t size, room;
  uint8_t banks, ports;
  uint16_t cells;
} shape;

/* Writes of each bank until each journal was full twice; whether each was served. */
static bool serves(sandbar_node *node, const shape *of) {
  static uint8_t packet[SANDBAR_MAX_PACKET], reply[SANDBAR_MAX_REPLY], data[4096];
  uint32_t bytes = of->size < sizeof data ? of->size : sizeof data;
  for (uint32_t k = 0; k <= 2 * of->room; k += 1)
    for (uint8_t bank = 0; bank < of->banks; bank += 1) {
      sandbar_served served;
      size_t length = put_write(packet, 1, bank, 0xA0000000u, data, bytes);
      if (sandbar_serve(node, 0, packet, length, SANDBAR_EOP, reply, sizeof reply, &served) != SANDBAR_OK) return false;
      if (served.status != 0) exit(EXIT_FAILURE);
      if (served.room == 0 && sandbar_rotate(node, bank, of->room) != SANDBAR_OK) return false;
    }
  return true;
}

/* Whether so many bytes are enough to open a node, and to serve if that is asked. */
static bool holds(const shape *of, size_t bytes, bool is_full) {
  sandbar_bank banks[8];
  for (uint8_t k = 0; k < of->banks; k += 1) banks[k] = (sandbar_bank){0xA0000000u, of->size, of->room};
  const sandbar_map map = {of->cells, 0};
  sandbar_node node = {0};
  sandbar_why why;
  limit = bytes;
  if (sandbar_open(&node, 0xFE, of->ports, banks, of->banks, &map, of->cells != 0, yes, sizeof yes, &why) != SANDBAR_OK) return false;
  bool is_enough = !is_full || serves(&node, of);
  sandbar_close(&node);
  return is_enough;
}

static size_t least(const shape *of, bool is_full) {
  size_t low = 0, high = 64u << 20;
  while (high - low > 1) {
    size_t middle = low + (high - low) / 2;
    if (holds(of, middle, is_full)) high = middle;
    else low = middle;
  }
  return high;
}

int main(void) {
  const shape shapes[] = {{256, 16, 1, 1, 0},     {65536, 16, 1, 1, 0},    {65536, 64, 1, 1, 0},
                          {65536, 1024, 1, 1, 0}, {65536, 1024, 1, 32, 1}, {65536, 1024, 8, 32, 256}};
  for (size_t k = 0; k < sizeof shapes / sizeof shapes[0]; k += 1) {
    const shape *of = &shapes[k];
    printf("%" PRIu32 " %" PRIu32 " %u %u %u: %zu %zu\n", of->size, of->room, of->banks, of->ports, of->cells, least(of, false), least(of, true));
  }
  return 0;
}
