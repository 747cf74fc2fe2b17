#define SANDBAR_SHORT_NAMES
#include "sandbarstove_bpf.h"

/* A set of keys as the bits of a number of 64 bits. */
uint64_t authorise(const struct front *f, const struct tail *t, uint64_t port) {
  const uint64_t keys = 1ull << 0x20 | 1ull << 0x22 | 1ull << 0x3F | 0x00FF000000000001ull;
  (void)t, (void)port;
  return f->key < 64 && keys >> f->key & 1 ? YES : INVALID_KEY;
}
