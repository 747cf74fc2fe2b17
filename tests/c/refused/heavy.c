#define SANDBAR_SHORT_NAMES
#include "sandbarstove_bpf.h"

uint64_t authorise(const struct front *f, const struct tail *t, uint64_t port) {
  uint64_t sum = t->crc, i = 400;
outer:;
  uint64_t j = 400;
inner:
  sum = sum * 3 + i;
  AGAIN(j, inner);
  AGAIN(i, outer);
  return sum & 1;
}
