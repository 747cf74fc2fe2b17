#define SANDBAR_SHORT_NAMES
#include "sandbarstove_bpf.h"
static const uint8_t rights[256] = {[32] = 7, [33] = 3};
uint64_t authorise(const struct front *f, const struct tail *t, uint64_t port) {
  volatile uint8_t seen[272];
  for (uint64_t i = 0; i < 272; i++) seen[i] = 0;
  seen[t->crc] = 1;
  return seen[f->key] | rights[f->key] >> 1 ? YES : INVALID_KEY;
}
