#define SANDBAR_SHORT_NAMES
#include "sandbarstove_bpf.h"

/* A loop that ends early: the first byte that is above its place decides. */
uint64_t authorise(const struct front *f, const struct tail *t, uint64_t port) {
  const uint8_t *bytes = (const uint8_t *)t;
  uint64_t i = 12;
  (void)f, (void)port;
next:
  if (bytes[i - 1] > 8 * i) return i & 1 ? YES : NOT_AUTHORISED;
  AGAIN(i, next);
  return INVALID_TARGET;
}
