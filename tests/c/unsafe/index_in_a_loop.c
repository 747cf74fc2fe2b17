#define SANDBAR_SHORT_NAMES
#include "sandbarstove_bpf.h"
uint64_t authorise(const struct front *f, const struct tail *t, uint64_t port) {
  const uint8_t *bytes = (const uint8_t *)t;
  uint64_t sum = 0, i = 14;
next:
  sum = sum * 3 + bytes[i - 1]; // V7
  AGAIN(i, next);
  return sum & 1 ? YES : NOT_AUTHORISED;
}
