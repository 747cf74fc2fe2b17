#define SANDBAR_SHORT_NAMES
#include "sandbarstove_bpf.h"
/* A loop whose number of rounds is bounded by a return. */
COUNTERS(0, paid, 32);
uint64_t authorise(const struct front *front, const struct tail *tail, uint64_t port) {
  uint64_t blocks = (length_of(tail) + 63) / 64, last = 0;
  if (kind_of(front) != WRITE) return YES;
  if (blocks > 16) return NOT_AUTHORISED;
  for (uint64_t i = 0; i < blocks; i++) last = ticket(&paid, port);
  return last < 40 ? YES : INVALID_TARGET;
}
