#define SANDBAR_SHORT_NAMES
#include "sandbarstove_bpf.h"

/* Each initiator may write 64 times; long writes count as a second ticket. */
COUNTERS(0, writes, 32);
PEAKS(1, longest, 8);
COUNTERS(2, others, 4);

uint64_t authorise(const struct front *f, const struct tail *t, uint64_t port) {
  uint64_t key = t->initiator & 31, length = length_of(t);
  (void)port;
  if (kind_of(f) != WRITE) return YES;
  if (length > 8 && ticket(&others, 0) >= 20) return NOT_AUTHORISED;
  return ticket(&writes, key) < 2 ? YES : NOT_AUTHORISED;
}
