#define SANDBAR_SHORT_NAMES
#include "sandbarstove_bpf.h"

/* A pointer that walks to the end of the tail. */
uint64_t authorise(const struct front *front, const struct tail *tail, uint64_t port) {
  const uint8_t *byte = (const uint8_t *)tail, *end = byte + 12;
  uint64_t sum = port + front->key;
#pragma clang loop unroll(disable)
  while (byte != end) sum = sum * 3 + *byte++;
  return sum & 8 ? YES : NOT_AUTHORISED;
}
