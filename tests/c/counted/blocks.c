#define SANDBAR_SHORT_NAMES
#include "sandbarstove_bpf.h"

COUNTERS(0, spent, 32);
/* A ticket for each block of four bytes. No more than sixteen are asked for. */
uint64_t authorise(const struct front *front, const struct tail *tail, uint64_t port) {
  uint64_t blocks = (length_of(tail) + 3) / 4, drawn = 0;
  if (blocks == 0) return YES;
  if (blocks > 16) return NOT_AUTHORISED;
next:
  drawn = ticket(&spent, port);
  AGAIN(blocks, next);
  return drawn < 8 ? YES : INVALID_KEY;
}
