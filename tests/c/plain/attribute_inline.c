#define SANDBAR_SHORT_NAMES
#include "sandbarstove_bpf.h"

/* The attribute is written out, as in code from elsewhere. */
static inline __attribute__((always_inline)) int is_even(uint64_t number) { return !(number & 1); }
uint64_t authorise(const struct front *front, const struct tail *tail, uint64_t port) {
  return is_even(address_of(tail)) || is_even(front->key) ? YES : NOT_AUTHORISED;
}
