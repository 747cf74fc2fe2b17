#define SANDBAR_SHORT_NAMES
#include "sandbarstove_bpf.h"

static uint64_t seen;
uint64_t authorise(const struct front *f, const struct tail *t, uint64_t port) {
  seen = seen * 3 + t->crc;
  return seen & 1;
}
