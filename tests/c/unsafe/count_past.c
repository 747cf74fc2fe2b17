#define SANDBAR_SHORT_NAMES
#include "sandbarstove_bpf.h"
COUNTERS(0, cells, 16);
uint64_t authorise(const struct front *f, const struct tail *t, uint64_t port) {
  uint64_t key = f->key & 31;
  return count(&cells, key) ? YES : INVALID_KEY; // V12
}
