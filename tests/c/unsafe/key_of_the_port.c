#define SANDBAR_SHORT_NAMES
#include "sandbarstove_bpf.h"
COUNTERS(0, cells, 8);
uint64_t authorise(const struct front *f, const struct tail *t, uint64_t port) {
  uint64_t drawn = 0;
  if (kind_of(f) == WRITE)
    drawn = ticket(&cells, port); // V12
  return drawn < 5 ? YES : NOT_AUTHORISED;
}
