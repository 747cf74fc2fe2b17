#define SANDBAR_SHORT_NAMES
#include "sandbarstove_bpf.h"

/* Indexes and keys of which a comparison says how great they may be. */
COUNTERS(0, commands, 32);

uint64_t authorise(const struct front *f, const struct tail *t, uint64_t port) {
  const uint8_t *bytes = (const uint8_t *)t;
  uint64_t place = f->key, cell = t->initiator;
  (void)port;
  if (place < 12 && bytes[place] > 3) return YES;
  if (cell >= 32 && cell < 0x67) return INVALID_TARGET;
  if (cell >= 32) cell -= 0x67;
  return cell < 32 && ticket(&commands, cell) < 3 ? YES : NOT_AUTHORISED;
}
