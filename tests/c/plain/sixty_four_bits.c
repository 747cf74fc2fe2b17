#define SANDBAR_SHORT_NAMES
#include "sandbarstove_bpf.h"

/* Sums, products and shifts of 64 bits, with constants of 64 bits. */
uint64_t authorise(const struct front *f, const struct tail *t, uint64_t port) {
  uint64_t x = (uint64_t)address_of(t) << 24 | (uint64_t)length_of(t) << 8 | f->key;
  x ^= x >> 30;
  x *= 0xBF58476D1CE4E5B9ull;
  x ^= x >> 27;
  x *= 0x94D049BB133111EBull;
  x ^= x >> 31;
  return x + port > 0x4000000000000000ull ? YES : NOT_AUTHORISED;
}
