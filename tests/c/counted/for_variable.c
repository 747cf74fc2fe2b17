#define SANDBAR_SHORT_NAMES
#include "sandbarstove_bpf.h"
/* A loop to a number of the header, which is at most twelve. */
uint64_t authorise(const struct front *front, const struct tail *tail, uint64_t port) {
  const uint8_t *bytes = (const uint8_t *)tail;
  uint64_t n = 4 * (front->instruction & 3);
  for (uint64_t i = 0; i < n; i++)
    if (bytes[i] >= 0xA0) return NOT_AUTHORISED;
  return port == 3 ? INVALID_KEY : YES;
}
