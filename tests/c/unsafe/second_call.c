#define SANDBAR_SHORT_NAMES
#include "sandbarstove_bpf.h"
COUNTERS(0, cells, 32);
uint64_t authorise(const struct front *f, const struct tail *t, uint64_t port) {
  uint64_t drawn = ticket(&cells, port);
  uint64_t more = count(&cells, drawn); // V12
  return more < 9 ? YES : NOT_AUTHORISED;
}
