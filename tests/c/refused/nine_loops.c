#define SANDBAR_SHORT_NAMES
#include "sandbarstove_bpf.h"

#define SUM(label) { uint64_t i = 3; label: sum = sum * 3 + f->key; AGAIN(i, label); }
uint64_t authorise(const struct front *f, const struct tail *t, uint64_t port) {
  uint64_t sum = t->crc;
  SUM(a) SUM(b) SUM(c) SUM(d) SUM(e) SUM(g) SUM(h) SUM(i) SUM(j)
  return sum & 1;
}
