#define SANDBAR_SHORT_NAMES
#include "sandbarstove_bpf.h"
/* A counter of 32 bits that goes down from a number that a return bounds. */
uint64_t authorise(const struct front *front, const struct tail *tail, uint64_t port) {
  uint32_t n = length_of(tail), sum = 0;
  if (n == 0 || n > 300) return INVALID_TARGET;
#pragma clang loop unroll(disable)
  for (uint32_t i = n; i > 0; i--) sum = sum * 5 + (i ^ front->key);
  return sum & 1 ? YES : NOT_AUTHORISED;
}
