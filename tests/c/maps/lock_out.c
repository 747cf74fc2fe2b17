#define SANDBAR_SHORT_NAMES
#include "sandbarstove_bpf.h"

/* Who shows three bad keys is locked out: the cell counts them by the initiator, and is looked at first. */
COUNTERS(0, bad, 32);

uint64_t authorise(const struct front *f, const struct tail *t, uint64_t port) {
  uint64_t cell = t->initiator & 31;
  uint8_t key = f->key;
  (void)port;
  if (count(&bad, cell) >= 3) return NOT_AUTHORISED;
  if (key == 0x20 || key == 0) return YES;
  ticket(&bad, cell);
  return INVALID_KEY;
}
