#define SANDBAR_SHORT_NAMES
#include "sandbarstove_bpf.h"
/* A search whose place is wanted afterwards. */
static const uint8_t known[6] = {0x67, 0x68, 0x69, 0x70, 0x42, 0x33};
COUNTERS(0, by_place, 6);
uint64_t authorise(const struct front *front, const struct tail *tail, uint64_t port) {
  uint64_t at = 0;
#pragma clang loop unroll(disable)
  while (at < 6 && known[at] != tail->initiator) at++;
  if (at >= 6) return NOT_AUTHORISED;
  return ticket(&by_place, at) < 5 + (front->key & 1) ? YES : INVALID_KEY;
}
