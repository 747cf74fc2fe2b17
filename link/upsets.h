/* What link/upsets.c asks of link/upsets_source.c: how the memory of a node of the C source is made up. */
#ifndef UPSETS_H
#define UPSETS_H

#include "sandbarstove.h"

/* A block of a heap. */
struct part {
  uint8_t *at;
  uint32_t size;
};

/* The instance of a module that a node of the C source is. */
struct module_memory {
  struct part instance, own_stack, constants; /* what host.c keeps; the module's own stack; what it has beside its heap */
  struct part blocks[4096];                   /* the blocks of its heap that are in use, by rising address */
  uint8_t *heads[8192];                       /* 16 bytes before each block, in use or free, by which the heap finds it */
  uint32_t block_count, head_count;
};

/* Finds them. The status is 0 if the heap is not what it is known to be. */
int find_module_memory(const sandbar_node *node, struct module_memory *memory);

#endif
