#define SANDBAR_SHORT_NAMES
#include "sandbarstove_bpf.h"

/* Of all 32 cells of a map the tickets are added up in a loop; a command that is denied draws none. */
COUNTERS(0, tickets, 32);

uint64_t authorise(const struct front *f, const struct tail *t, uint64_t port) {
  uint64_t all = 0, i = 32;
  (void)f, (void)t;
next:
  all += count(&tickets, i - 1);
  AGAIN(i, next);
  if (all >= 40) return NOT_AUTHORISED;
  ticket(&tickets, port);
  return YES;
}
