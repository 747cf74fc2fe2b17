#define SANDBAR_SHORT_NAMES
#include "sandbarstove_bpf.h"

/* Bits that are turned round, and shifts by what a byte says. */
SANDBAR_ALWAYS_INLINE uint32_t turned(uint32_t x, uint32_t by) { return x << (by & 31) | x >> (-by & 31); }

uint64_t authorise(const struct front *f, const struct tail *t, uint64_t port) {
  uint32_t a = address_of(t);
  uint64_t wide = ((uint64_t)a << 32 | a) >> (t->transaction[1] & 31);
  return (turned(a, f->key) ^ (uint32_t)wide ^ (uint32_t)port) & 3 ? YES : NOT_AUTHORISED;
}
