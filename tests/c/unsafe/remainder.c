#define SANDBAR_SHORT_NAMES
#include "sandbarstove_bpf.h"
uint64_t authorise(const struct front *f, const struct tail *t, uint64_t port) {
  const uint8_t *bytes = (const uint8_t *)t;
  uint64_t at = f->key % 13;
  return bytes[at] == 1 ? YES : NOT_AUTHORISED; // V7
}
