#define SANDBAR_SHORT_NAMES
#include "sandbarstove_bpf.h"

static uint64_t (*const clock)(void) = (uint64_t(*)(void))7;
uint64_t authorise(const struct front *f, const struct tail *t, uint64_t port) {
  return clock() & 1;
}
