#define SANDBAR_SHORT_NAMES
#include "sandbarstove_bpf.h"

/* A loop that begins with a number of the header. */
uint64_t authorise(const struct front *front, const struct tail *tail, uint64_t port) {
  const uint8_t *bytes = (const uint8_t *)tail;
  uint64_t sum = port;
#pragma clang loop unroll(disable)
  for (uint64_t i = front->key & 7; i < 12; i++) sum = sum * 31 + bytes[i];
  return sum % 3 ? YES : NOT_AUTHORISED;
}
