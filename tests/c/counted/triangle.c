#define SANDBAR_SHORT_NAMES
#include "sandbarstove_bpf.h"
/* A loop within a loop, as often as that has gone. */
uint64_t authorise(const struct front *front, const struct tail *tail, uint64_t port) {
  const uint8_t *bytes = (const uint8_t *)tail;
  uint64_t pairs = 0;
#pragma clang loop unroll(disable)
  for (int i = 1; i < 11; i++)
#pragma clang loop unroll(disable)
    for (int j = 0; j < i; j++) pairs += bytes[i] == bytes[j];
  return pairs > 4 ? NOT_AUTHORISED : YES;
}
