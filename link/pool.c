/* The heap of the library over one static array, for a program without a heap: include/sandbarstove_heap.h. Free blocks lie
 * in a list by address, and neighbours are joined. A block as large as the longest packet, or smaller, is the end of the last free
 * block that is large enough. A larger one is the beginning of the first. So what the verifier needs for a while leaves no gap
 * between blocks that stay. POOL: how many bytes. It is for one thread: a program of several puts a lock of its own round each of the
 * three. */
#include "sandbarstove_heap.h"

#include <stdbool.h>
#include <stdint.h>
#include <string.h>

#ifndef POOL
#define POOL (1u << 20)
#endif

/* In front of each block: how many units it has with this one, and, where it is free, the next free one. */
typedef struct unit {
  _Alignas(16) size_t units;
  struct unit *next;
} unit;

static unit pool[POOL / sizeof(unit)];
static unit list; /* its next is the first free block */
static bool is_laid;

void pool_clear(void); /* after a node was damaged, before the next is opened: all of the pool is free, whatever was in it */

void pool_clear(void) { is_laid = false; }

/* How many units a small block has at most: that of a packet of 4,200 bytes. */
enum { SMALL = 264 };

static size_t units_of(size_t size) { return (size + sizeof(unit) - 1) / sizeof(unit) + 1; }

static void lay(void) {
  if (is_laid) return;
  is_laid = true;
  pool[0].units = sizeof pool / sizeof(unit);
  pool[0].next = NULL;
  list.next = pool;
}

/* Cuts a block that is in use to so many units, and gives the rest back. */
static void cut(unit *block, size_t units) {
  if (block->units == units) return;
  unit *rest = block + units;
  rest->units = block->units - units;
  block->units = units;
  rattle_dealloc(rest + 1);
}

/* The free block before the one that is taken for so many units, in the list; nothing if none is large enough. */
static unit *before_taken(size_t units) {
  unit *found = NULL;
  for (unit *before = &list; before->next != NULL; before = before->next) {
    if (before->next->units < units) continue;
    found = before;
    if (units > SMALL) break;
  }
  return found;
}

rattle_block rattle_alloc(size_t size, size_t align) {
  (void)align; /* each block is aligned to 16 */
  lay();
  size_t units = size > sizeof pool ? SIZE_MAX : units_of(size);
  unit *before = before_taken(units);
  if (before == NULL) return (rattle_block){false, pool};
  unit *block = before->next;
  if (units <= SMALL && block->units > units) {
    block->units -= units;
    block += block->units;
    block->units = units;
  } else {
    before->next = block->next;
    cut(block, units);
  }
  return (rattle_block){true, block + 1};
}

void rattle_dealloc(void *at) {
  unit *block = (unit *)at - 1, *before = &list;
  while (before->next != NULL && before->next < block) before = before->next;
  block->next = before->next;
  before->next = block;
  if (block->next == block + block->units) {
    block->units += block->next->units;
    block->next = block->next->next;
  }
  if (before != &list && before + before->units == block) {
    before->units += block->units;
    before->next = block->next;
  }
}

/* Grows into the free block behind it where that is large enough: a large block needs no second one beside it. */
static bool grows(unit *block, size_t units) {
  for (unit *before = &list; before->next != NULL; before = before->next) {
    unit *behind = before->next;
    if (behind != block + block->units || block->units + behind->units < units) continue;
    before->next = behind->next;
    block->units += behind->units;
    return true;
  }
  return false;
}

rattle_block rattle_realloc(void *at, size_t kept, size_t size, size_t align) {
  unit *block = (unit *)at - 1;
  size_t units = size > sizeof pool ? SIZE_MAX : units_of(size);
  if (block->units >= units || grows(block, units)) {
    cut(block, units);
    return (rattle_block){true, at};
  }
  rattle_block other = rattle_alloc(size, align);
  if (other.ok) {
    memcpy(other.at, at, kept < size ? kept : size);
    rattle_dealloc(at);
  }
  return other;
}
