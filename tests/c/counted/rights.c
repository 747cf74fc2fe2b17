#define SANDBAR_SHORT_NAMES
#include "sandbarstove_bpf.h"
/* A byte of rights for each initiator. */
static const uint8_t rights[256] = {[0x67] = 7, [0x68] = 1, [0x69] = 3, [0x42] = 2, [0x70] = 4, [0xFE] = 5};
uint64_t authorise(const struct front *front, const struct tail *tail, uint64_t port) {
  return rights[tail->initiator] >> kind_of(front) & 1 ? YES : NOT_AUTHORISED;
}
