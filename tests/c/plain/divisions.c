#define SANDBAR_SHORT_NAMES
#include "sandbarstove_bpf.h"

/* Divisions and remainders of 32 and 64 bits, of which some are by zero: a quotient of 0, a remainder of the whole. */
uint64_t authorise(const struct front *f, const struct tail *t, uint64_t port) {
  uint64_t wide = (uint64_t)address_of(t) << 20 | length_of(t);
  uint32_t by = f->key & 7;
  (void)port;
  if (!by) return INVALID_KEY;
  return wide / by % 11 + address_of(t) % by + wide % (by + 3) > 9 ? YES : NOT_AUTHORISED;
}
