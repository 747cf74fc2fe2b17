#define SANDBAR_SHORT_NAMES
#include "sandbarstove_bpf.h"

uint64_t authorise(const struct front *f, const struct tail *t, uint64_t port) {
  uint64_t (*volatile helper)(uint64_t) = (uint64_t(*)(uint64_t))(uint64_t)(port + 1);
  return helper(t->crc);
}
