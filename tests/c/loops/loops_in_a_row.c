#define SANDBAR_SHORT_NAMES
#include "sandbarstove_bpf.h"

/* Two loops, one after the other: the bits of the key, then the bytes of the tail. */
uint64_t authorise(const struct front *f, const struct tail *t, uint64_t port) {
  const uint8_t *bytes = (const uint8_t *)t;
  uint64_t bits = f->key, ones = 0, sum = 0;
  (void)port;
  uint64_t i = 8;
count_ones:
  ones += bits & 1;
  bits >>= 1;
  AGAIN(i, count_ones);
  uint64_t j = 11;
add_up:
  sum += bytes[j - 1] * ones;
  AGAIN(j, add_up);
  return sum % 5 < 3 ? YES : NOT_AUTHORISED;
}
