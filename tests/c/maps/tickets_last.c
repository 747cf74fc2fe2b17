#define SANDBAR_SHORT_NAMES
#include "sandbarstove_bpf.h"

/* A ticket is drawn only where everything else says yes, so who may not write uses up nothing. */
COUNTERS(0, writes, 32);

uint64_t authorise(const struct front *f, const struct tail *t, uint64_t port) {
  uint32_t address = address_of(t);
  uint64_t behind = (uint64_t)address + length_of(t);
  if (kind_of(f) != WRITE) return YES;
  if (f->key != 0x20 && f->key != 0x21) return INVALID_KEY;
  if (address < 0xA0000000 || behind > 0xA0004000) return NOT_AUTHORISED;
  return ticket(&writes, port) < 4 ? YES : NOT_AUTHORISED;
}
