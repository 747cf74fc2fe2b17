#define SANDBAR_SHORT_NAMES
#include "sandbarstove_bpf.h"
uint64_t authorise(const struct front *f, const struct tail *t, uint64_t port) {
  return (uint64_t)(uintptr_t)t; // V6
}
