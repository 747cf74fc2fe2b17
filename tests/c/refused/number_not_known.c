#define SANDBAR_SHORT_NAMES
#include "sandbarstove_bpf.h"

uint64_t authorise(const struct front *f, const struct tail *t, uint64_t port) {
  uint64_t sum = 0, i = 1 + (uint64_t)address_of(t);
again:
  sum = sum * 3 + f->key;
  AGAIN(i, again);
  return sum & 1;
}
