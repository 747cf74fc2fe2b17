#define SANDBAR_SHORT_NAMES
#include "sandbarstove_bpf.h"

COUNTERS(0, first, 4);
/* The stack is nearly full, so there is no room for the header on it. */
uint64_t authorise(const struct front *f, const struct tail *t, uint64_t port) {
  volatile uint8_t all[432];
  all[port & 0xFF] = 1;
  uint64_t a = ticket(&first, 0), b = ticket(&first, 1), c = ticket(&first, 2), d = ticket(&first, 3);
  return a + t->crc > b + f->key && c + t->initiator > d + port && a * b < c * d + count(&first, t->length[2] & 3);
}
