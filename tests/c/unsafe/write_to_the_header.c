#define SANDBAR_SHORT_NAMES
#include "sandbarstove_bpf.h"
uint64_t authorise(const struct front *f, const struct tail *t, uint64_t port) {
  uint8_t *bytes = (uint8_t *)t;
  bytes[3] = f->key; // V9
  return YES;
}
