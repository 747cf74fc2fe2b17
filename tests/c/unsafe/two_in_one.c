#define SANDBAR_SHORT_NAMES
#include "sandbarstove_bpf.h"
uint64_t authorise(const struct front *f, const struct tail *t, uint64_t port) {
  const uint8_t *bytes = port & 1 ? (const uint8_t *)f : (const uint8_t *)t;
  return bytes[2] == 9 ? YES : NOT_AUTHORISED; // V5
}
