#define SANDBAR_SHORT_NAMES
#include "sandbarstove_bpf.h"

static const uint8_t keys[8] = {0x20, 0x21, 0x22, 0x23, 0x30, 0x31, 0x40, 0x7F};
/* A key for each block of the memory. */
uint64_t authorise(const struct front *front, const struct tail *tail, uint64_t port) {
  return front->key == keys[tail->address[2] >> 5] ? YES : INVALID_KEY;
}
