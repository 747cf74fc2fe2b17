#define SANDBAR_SHORT_NAMES
#include "sandbarstove_bpf.h"
/* A loop that counts down from a number of the header. */
uint64_t authorise(const struct front *front, const struct tail *tail, uint64_t port) {
  const uint8_t *bytes = (const uint8_t *)tail;
  uint64_t n = front->key & 7, sum = port;
  while (n--) sum = sum * 31 + bytes[n];
  return sum % 3 ? YES : NOT_AUTHORISED;
}
