#define SANDBAR_SHORT_NAMES
#include "sandbarstove_bpf.h"
COUNTERS(0, cells, 4);
uint64_t authorise(const struct front *f, const struct tail *t, uint64_t port) {
  uint64_t sum = 0, i = 6;
next:
  sum += count(&cells, i - 1); // V12
  AGAIN(i, next);
  return sum & 1 ? YES : NOT_AUTHORISED;
}
