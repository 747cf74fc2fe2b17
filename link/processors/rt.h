/* What the C of wasm2c, and host.c, ask for: of the C library memcpy, memmove and memset alone. */
#ifndef SANDBARSTOVE_RT_H
#define SANDBARSTOVE_RT_H

#include <stdbool.h>
#include <stddef.h>
#include <stdint.h>
#include <string.h>

/* Where the highest byte of a number comes first, byte A of a module's memory lies at data[size - 1 - A]. */
#ifndef WABT_BIG_ENDIAN
#if defined(__BYTE_ORDER__) && __BYTE_ORDER__ == __ORDER_BIG_ENDIAN__
#define WABT_BIG_ENDIAN 1
#else
#define WABT_BIG_ENDIAN 0
#endif
#endif

/* 0: each access is tested against the memory's size. 1: none is; docs/EMBEDDING.md says what that rests on. */
#ifndef WASM_RT_MEMCHECK_SIGNAL_HANDLER
#define WASM_RT_MEMCHECK_SIGNAL_HANDLER 0
#endif

/* The most pages of 65,536 bytes that a module's memory may have. With PORTABLE_PAGES_AT_OPENING a node has that many from its
 * opening on, and no more where nothing else is said: then its memory is one block, and never asked for anew. */
#ifndef PORTABLE_PAGES
#ifdef PORTABLE_PAGES_AT_OPENING
#define PORTABLE_PAGES PORTABLE_PAGES_AT_OPENING
#else
#define PORTABLE_PAGES 1024u
#endif
#endif

#ifdef __GNUC__
#define UNLIKELY(x) __builtin_expect(!!(x), 0)
#else
#define UNLIKELY(x) (x)
#endif
#define wasm_rt_memcpy memcpy

typedef struct {
  uint8_t *data;
  uint32_t pages, max_pages, size;
} wasm_rt_memory_t;

/* Why code can come to no end of its own. Code that keeps to its proof comes to none of these. */
typedef enum {
  WASM_RT_TRAP_NONE,
  WASM_RT_TRAP_OOB,
  WASM_RT_TRAP_INT_OVERFLOW,
  WASM_RT_TRAP_DIV_BY_ZERO,
  WASM_RT_TRAP_UNREACHABLE,
  WASM_RT_TRAP_EXHAUSTION
} wasm_rt_trap_t;

_Noreturn void wasm_rt_trap(wasm_rt_trap_t why);
void wasm_rt_allocate_memory(wasm_rt_memory_t *memory, uint32_t pages, uint32_t most);
uint32_t wasm_rt_grow_memory(wasm_rt_memory_t *memory, uint32_t by);
void wasm_rt_free_memory(wasm_rt_memory_t *memory);

/* Takes the memory that a module begins with; false where it is refused. */
bool rt_take_memory(wasm_rt_memory_t *memory, uint32_t pages);

/* Called instead of going on where code and proof would part. The program gives it where all is compiled with
 * -DSANDBAR_TRAP; else it is abort(). It does not return. */
_Noreturn void sandbar_trap(int why);

#endif
