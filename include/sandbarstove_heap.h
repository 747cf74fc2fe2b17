/**
 * @file sandbarstove_heap.h
 * The heap of the library. The archive, and the C for other processors, ask a program for these three functions.
 * The file heap.c of link/ has them over malloc, realloc and free, and pool.c over an array. A program without a heap brings
 * its own.
 */
#ifndef SANDBARSTOVE_HEAP_H
#define SANDBARSTOVE_HEAP_H

#include <stddef.h>

#ifdef __cplusplus
extern "C" {
#endif

/** What a request comes to. */
typedef struct rattle_block {
  unsigned char ok; /**< 1 if there is a block, else 0 */
  void *at;         /**< the block; if there is none, any pointer that is not null: nothing is read or written there */
} rattle_block;

/**
 * A block of @p size bytes, with any bytes in it. A block of no bytes is one too, with an address that is not null.
 *
 * @param align a power of two, at most 16, which divides the address of the block
 */
rattle_block rattle_alloc(size_t size, size_t align);

/**
 * A block of @p size bytes that begins with the @p kept first bytes of @p block, as far as they fit. It gives @p block
 * back. If it refuses, @p block is as it was.
 *
 * @param kept how many bytes @p block has.
 */
rattle_block rattle_realloc(void *block, size_t kept, size_t size, size_t align);

/** Gives a block back. */
void rattle_dealloc(void *block);

#ifdef __cplusplus
}
#endif

#endif
