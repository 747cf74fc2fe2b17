#define SANDBAR_SHORT_NAMES
#include "sandbarstove_bpf.h"
COUNTERS(0, cells, 4);
uint64_t authorise(const struct front *f, const struct tail *t, uint64_t port) {
  if (port > 3) return NOT_AUTHORISED;
  return peak(&cells, 1, t->crc) > 9 ? YES : NOT_AUTHORISED; // V18
}
