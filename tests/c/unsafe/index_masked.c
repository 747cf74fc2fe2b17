#define SANDBAR_SHORT_NAMES
#include "sandbarstove_bpf.h"
uint64_t authorise(const struct front *f, const struct tail *t, uint64_t port) {
  const uint8_t *bytes = (const uint8_t *)t;
  if (f->key != 0x20) return INVALID_KEY;
  return bytes[t->crc & 15] ? YES : NOT_AUTHORISED; // V7
}
