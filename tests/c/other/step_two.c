#define SANDBAR_SHORT_NAMES
#include "sandbarstove_bpf.h"
/* A loop of steps of two, over halves of the tail. */
uint64_t authorise(const struct front *front, const struct tail *tail, uint64_t port) {
  const uint8_t *bytes = (const uint8_t *)tail;
  uint32_t sum = 0;
#pragma clang loop unroll(disable)
  for (unsigned i = 1; i < 11; i += 2) sum += (uint32_t)bytes[i] << 8 | bytes[i + 1];
  return (sum & 0xFFFF) > 0x8000 ? YES : port ? NOT_AUTHORISED : INVALID_KEY;
}
