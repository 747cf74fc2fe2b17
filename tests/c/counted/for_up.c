#define SANDBAR_SHORT_NAMES
#include "sandbarstove_bpf.h"
/* A loop that counts up to a number, and is not unrolled. */
uint64_t authorise(const struct front *front, const struct tail *tail, uint64_t port) {
  const uint8_t *bytes = (const uint8_t *)tail;
  unsigned sum = 0;
#pragma clang loop unroll(disable)
  for (int i = 0; i <= 10; i++) sum = (sum << 1 | sum >> 7) ^ bytes[i];
  return (sum + front->key + port) % 3 ? YES : NOT_AUTHORISED;
}
