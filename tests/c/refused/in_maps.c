#define SANDBAR_SHORT_NAMES
#include "sandbarstove_bpf.h"

COUNTERS(0, first, 4);
uint8_t other __attribute__((section(".maps"), used)) = 7;
uint64_t authorise(const struct front *f, const struct tail *t, uint64_t port) {
  return ticket(&first, 0) > 4;
}
