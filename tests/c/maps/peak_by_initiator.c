#define SANDBAR_SHORT_NAMES
#include "sandbarstove_bpf.h"

/* The transaction identifiers of each initiator have to rise. */
COUNTERS(0, unused, 32);
PEAKS(1, last, 8);

uint64_t authorise(const struct front *f, const struct tail *t, uint64_t port) {
  uint64_t number = (uint64_t)t->transaction[0] << 8 | t->transaction[1];
  (void)f, (void)port;
  return peak(&last, t->initiator & 7, number) == number ? YES : NOT_AUTHORISED;
}
