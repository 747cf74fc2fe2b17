#define SANDBAR_SHORT_NAMES
#include "sandbarstove_bpf.h"

uint64_t authorise(const struct front *f, const struct tail *t, uint64_t port) {
  uint64_t sum = port, i = 12;
outer:
  sum = sum * 3 + f->key;
  uint64_t j = 8;
inner:
  sum = sum * 3 + t->crc;
  if (sum & 1) AGAIN(i, outer);
  sum ^= 5;
  AGAIN(j, inner);
  return sum & 1;
}
