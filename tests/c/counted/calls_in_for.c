#define SANDBAR_SHORT_NAMES
#include "sandbarstove_bpf.h"
/* A loop with a call in it, over the cells of a map. */
COUNTERS(0, drawn, 8);
uint64_t authorise(const struct front *front, const struct tail *tail, uint64_t port) {
  uint64_t all = 0, mine = ticket(&drawn, port & 7);
#pragma clang loop unroll(disable)
  for (uint64_t i = 0; i < 8; i++) all += count(&drawn, i);
  return 3 * mine <= all + 4 ? YES : NOT_AUTHORISED;
}
