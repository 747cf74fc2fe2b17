#define SANDBAR_SHORT_NAMES
#include "sandbarstove_bpf.h"

uint64_t authorise(const struct front *f, const struct tail *t, uint64_t port) {
  uint64_t sum = t->crc, i = 5000;
again:
  sum = sum * 3 + 1;
  AGAIN(i, again);
  return sum & 1;
}
