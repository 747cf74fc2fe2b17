#define SANDBAR_SHORT_NAMES
#include "sandbarstove_bpf.h"
uint64_t authorise(const struct front *f, const struct tail *t, uint64_t port) {
  uint64_t sum = f->key;
  for (int i = 0; i < 3; i++) sum += t->length[i];
  return sum == port ? YES : INVALID_KEY;
}
