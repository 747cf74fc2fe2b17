#define SANDBAR_SHORT_NAMES
#include "sandbarstove_bpf.h"

/* The address by a swap of its bytes, and from the same bytes as they come. */
uint64_t authorise(const struct front *f, const struct tail *t, uint64_t port) {
  uint32_t as_they_come;
  (void)f, (void)port;
  __builtin_memcpy(&as_they_come, t->address, 4);
  uint32_t address = __builtin_bswap32(as_they_come);
  if (address != address_of(t)) return INVALID_TARGET;
  return __builtin_bswap16((uint16_t)as_they_come) & 1 ? NOT_AUTHORISED : YES;
}
