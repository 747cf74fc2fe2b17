#define SANDBAR_SHORT_NAMES
#include "sandbarstove_bpf.h"

uint64_t authorise(const struct front *f, const struct tail *t, uint64_t port) {
  const uint8_t *bytes = (const uint8_t *)t;
  uint64_t sum = 0, i = 12;
again:
  sum = sum * 3 + bytes[i - 1];
  if (sum & 1) AGAIN(i, again);
  sum ^= f->key;
  AGAIN(i, again);
  return sum & 1;
}
