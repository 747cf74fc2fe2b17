#define SANDBAR_SHORT_NAMES
#include "sandbarstove_bpf.h"

/* Writes begin at a multiple of four, and have whole words; a read-modify-write has one word and its mask. */
uint64_t authorise(const struct front *f, const struct tail *t, uint64_t port) {
  uint32_t address = address_of(t), length = length_of(t);
  (void)port;
  if (kind_of(f) == READ) return YES;
  if (address & 3) return NOT_AUTHORISED;
  if (kind_of(f) == RMW) return length == 4 ? YES : NOT_AUTHORISED;
  return length % 4 == 0 ? YES : NOT_AUTHORISED;
}
