#define SANDBAR_SHORT_NAMES
#include "sandbarstove_bpf.h"
uint64_t authorise(const struct front *f, const struct tail *t, uint64_t port) {
  volatile uint8_t seen[16];
  for (int i = 0; i < 16; i++) seen[i] = 0;
  seen[t->crc & 31] = 1; // V7
  return seen[3] ? YES : NOT_AUTHORISED;
}
