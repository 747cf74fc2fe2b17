#define SANDBAR_SHORT_NAMES
#include "sandbarstove_bpf.h"
COUNTERS(0, cells, 4);
uint64_t authorise(const struct front *f, const struct tail *t, uint64_t port) {
  if (f->key == 0x20) return YES;
  return ticket(&cells, t->crc) < 5 ? YES : NOT_AUTHORISED; // V12
}
