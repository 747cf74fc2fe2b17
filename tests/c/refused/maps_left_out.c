#define SANDBAR_SHORT_NAMES
#include "sandbarstove_bpf.h"

COUNTERS(0, first, 4);
COUNTERS(2, third, 4);
uint64_t authorise(const struct front *f, const struct tail *t, uint64_t port) {
  return ticket(&first, 0) + ticket(&third, 0) > 4;
}
