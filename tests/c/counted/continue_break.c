#define SANDBAR_SHORT_NAMES
#include "sandbarstove_bpf.h"
/* A loop with both ways to leave a round early. */
uint64_t authorise(const struct front *front, const struct tail *tail, uint64_t port) {
  const uint8_t *bytes = (const uint8_t *)tail;
  uint64_t seen = 0, i;
#pragma clang loop unroll(disable)
  for (i = 0; i < 11; i++) {
    if (bytes[i] == 0) continue;
    seen += bytes[i];
    if (seen > 0x300) break;
    if (bytes[i] & 1) continue;
    seen ^= front->key;
  }
  return (i + seen) & 1 ? YES : NOT_AUTHORISED;
}
