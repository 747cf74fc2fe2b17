#define SANDBAR_SHORT_NAMES
#include "sandbarstove_bpf.h"

/* Two indices, of which one goes up and one down. */
uint64_t authorise(const struct front *front, const struct tail *tail, uint64_t port) {
  const uint8_t *bytes = (const uint8_t *)tail;
  uint64_t sum = port ^ front->key, j = 11;
#pragma clang loop unroll(disable)
  for (uint64_t i = 0; i < 6; i++, j--) sum = sum * 5 + (bytes[i] ^ bytes[j]);
  return sum & 4 ? YES : INVALID_KEY;
}
