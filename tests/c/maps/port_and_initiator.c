#define SANDBAR_SHORT_NAMES
#include "sandbarstove_bpf.h"

/* Five commands of each port, of which three of each initiator; who is denied by his initiator has drawn of the port too. */
COUNTERS(0, ports, 32);
PEAKS(1, unused, 8);
COUNTERS(2, initiators, 4);

uint64_t authorise(const struct front *f, const struct tail *t, uint64_t port) {
  uint8_t initiator = t->initiator;
  (void)f;
  if (initiator < 0x67 || initiator > 0x6A) return INVALID_TARGET;
  if (ticket(&ports, port) >= 5) return NOT_AUTHORISED;
  return ticket(&initiators, initiator - 0x67) < 3 ? YES : NOT_AUTHORISED;
}
