#define SANDBAR_SHORT_NAMES
#include "sandbarstove_bpf.h"
/* The check of the tail by the definition of the CRC, in two loops as they are written first. */
uint64_t authorise(const struct front *front, const struct tail *tail, uint64_t port) {
  const uint8_t *bytes = (const uint8_t *)tail;
  uint8_t crc = 0;
#pragma clang loop unroll(disable)
  for (int i = 0; i < 12; i++) {
    crc ^= bytes[i];
#pragma clang loop unroll(disable)
    for (int j = 0; j < 8; j++) crc = (uint8_t)(crc & 1 ? crc >> 1 ^ 0xE0 : crc >> 1);
  }
  return crc & 3 ? YES : NOT_AUTHORISED;
}
