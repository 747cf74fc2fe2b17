/* What comes of the end of the module's own stack in the C source: each call begins with less of it than it takes, and an access
 * past the end lies outside the memory. It prints how much a read needs; the status is 1 if a call with less does not trap so.
 * Compiled with -DSANDBAR_TRAP. */
#include "packets.h"
#include "sandbarstove_module.h"

#include <setjmp.h>
#include <stdio.h>
#include <stdlib.h>

static const uint8_t yes[] = IMAGE_OF(0);
static jmp_buf out;

_Noreturn void sandbar_trap(int why) { longjmp(out, why); }

/* A node whose module has so few bytes of stack left. */
static sandbar_node with_stack(uint64_t bytes) {
  const sandbar_bank bank = {0xA0000000u, 256, 16};
  const sandbar_map map = {1, 0};
  sandbar_node node = {0};
  sandbar_why why;
  if (sandbar_open(&node, 0xFE, 1, &bank, 1, &map, 1, yes, sizeof yes, &why) == SANDBAR_OK)
    ((Z_sandbar_instance_t *)(uintptr_t)node.inside)->w2c_g0 = bytes;
  return node;
}

/* Whether a read traps as one outside the memory. */
static int traps(uint64_t bytes) {
  static uint8_t packet[16], reply[SANDBAR_MAX_REPLY];
  static sandbar_served served;
  static sandbar_node node;
  node = with_stack(bytes);
  size_t length = put_read(packet, 1, 0, 0xA0000000u, 16);
  int why = setjmp(out);
  if (why == 0) {
    if (sandbar_serve(&node, 0, packet, length, SANDBAR_EOP, reply, sizeof reply, &served) != SANDBAR_OK) exit(EXIT_FAILURE);
    return 0;
  }
  if (why != WASM_RT_TRAP_OOB) exit(EXIT_FAILURE);
  return 1;
}

/* How many bytes of stack a read needs, to 16 of them: with fewer it traps. */
static uint64_t needed(void) {
  uint64_t low = 0, high = SANDBAR_STACK / 16;
  while (high - low > 1) {
    uint64_t middle = low + (high - low) / 2;
    if (traps(16 * middle)) low = middle;
    else high = middle;
  }
  return 16 * high;
}

int main(void) {
  if (traps(SANDBAR_STACK)) return 1;
  for (uint64_t bytes = 0; bytes <= 512; bytes += 128)
    if (!traps(bytes)) return 1;
  printf("a read needs %lu of %lu bytes\n", (unsigned long)needed(), (unsigned long)SANDBAR_STACK);
  return 0;
}
