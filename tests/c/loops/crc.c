#define SANDBAR_SHORT_NAMES
#include "sandbarstove_bpf.h"

/* The check of the tail by the definition of the CRC, in two loops: eight bits of each of the twelve bytes. */
uint64_t authorise(const struct front *f, const struct tail *t, uint64_t port) {
  const uint8_t *bytes = (const uint8_t *)t;
  uint64_t crc = 0, i = 12;
  (void)f, (void)port;
byte:
  crc ^= bytes[12 - i];
  uint64_t j = 8;
bit:
  crc = crc & 1 ? crc >> 1 ^ 0xE0 : crc >> 1;
  AGAIN(j, bit);
  AGAIN(i, byte);
  return crc & 3 ? YES : NOT_AUTHORISED;
}
