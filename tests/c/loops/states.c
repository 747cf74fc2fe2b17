#define SANDBAR_SHORT_NAMES
#include "sandbarstove_bpf.h"

/* A machine of four states over the bytes of the tail. */
SANDBAR_ALWAYS_INLINE uint64_t after(uint64_t state, uint8_t byte) {
  switch (state) {
    case 0: return byte & 1 ? 1 : 2;
    case 1: return byte & 2 ? 3 : 0;
    case 2: return byte > 0x80 ? 1 : 3;
    default: return byte & 4 ? 0 : 2;
  }
}

uint64_t authorise(const struct front *f, const struct tail *t, uint64_t port) {
  const uint8_t *bytes = (const uint8_t *)t;
  uint64_t state = port & 3, i = 11;
  (void)f;
next:
  state = after(state, bytes[11 - i]);
  AGAIN(i, next);
  return state == 3 ? INVALID_TARGET : state ? YES : NOT_AUTHORISED;
}
