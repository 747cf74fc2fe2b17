#define SANDBAR_SHORT_NAMES
#include "sandbarstove_bpf.h"
uint64_t authorise(const struct front *f, const struct tail *t, uint64_t port) {
  uint64_t half = (uint64_t)(uintptr_t)f / (1 + port); // V6
  return half & 8 ? YES : NOT_AUTHORISED;
}
