#define SANDBAR_SHORT_NAMES
#include "sandbarstove_bpf.h"

uint64_t authorise(const struct front *f, const struct tail *t, uint64_t port) {
  uint64_t sum = port, i = 12;
  if (f->key == 0x20) goto middle;
again:
  sum = sum * 3 + f->key;
middle:
  __asm__ volatile("%0 += 7" : "+r"(sum));
  AGAIN(i, again);
  return sum & 1;
}
