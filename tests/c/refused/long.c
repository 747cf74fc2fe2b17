#define SANDBAR_SHORT_NAMES
#include "sandbarstove_bpf.h"

uint64_t authorise(const struct front *f, const struct tail *t, uint64_t port) {
  const uint8_t *bytes = (const uint8_t *)t;
  uint64_t hash = port;
#pragma unroll
  for (int i = 0; i < 120; i++) hash = (hash ^ bytes[i % 12]) * 0x100000001B3 + (hash >> 7);
  return hash & 1;
}
