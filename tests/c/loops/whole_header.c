#define SANDBAR_SHORT_NAMES
#include "sandbarstove_bpf.h"

/* One loop over each part of the header, by pointers to its bytes. */
uint64_t authorise(const struct front *f, const struct tail *t, uint64_t port) {
  const uint8_t *front = (const uint8_t *)f, *tail = (const uint8_t *)t;
  uint64_t hash = 5381 + port, i = 4, j = 12;
first:
  hash = hash * 33 ^ front[4 - i];
  AGAIN(i, first);
second:
  hash = hash * 33 ^ tail[12 - j];
  AGAIN(j, second);
  return hash & 0x18 ? YES : NOT_AUTHORISED;
}
