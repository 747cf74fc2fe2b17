#define SANDBAR_SHORT_NAMES
#include "sandbarstove_bpf.h"
PEAKS(0, greatest, 4);
uint64_t authorise(const struct front *f, const struct tail *t, uint64_t port) {
  return ticket(&greatest, port & 3) < 5 ? YES : NOT_AUTHORISED; // V18
}
