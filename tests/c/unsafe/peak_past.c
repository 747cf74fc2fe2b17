#define SANDBAR_SHORT_NAMES
#include "sandbarstove_bpf.h"
PEAKS(0, greatest, 2);
uint64_t authorise(const struct front *f, const struct tail *t, uint64_t port) {
  uint64_t number = t->transaction[1];
  return peak(&greatest, port & 3, number) == number ? YES : NOT_AUTHORISED; // V12
}
