#define SANDBAR_SHORT_NAMES
#include "sandbarstove_bpf.h"
/* Two tables, and an array of the function beside them. */
static const uint32_t bases[4] = {0xA0000000, 0xA0001000, 0xA0004000, 0xA0008000};
static const uint16_t sizes[4] = {0x100, 0x800, 0x10, 0x4000};
uint64_t authorise(const struct front *front, const struct tail *tail, uint64_t port) {
  volatile uint8_t last[8];
  uint64_t at = tail->transaction[1] & 3;
  for (uint64_t i = 0; i < 8; i++) last[i] = tail->address[3];
  uint32_t address = address_of(tail);
  if (address < bases[at] || address - bases[at] >= sizes[at]) return NOT_AUTHORISED;
  return last[port & 7] & 1 ? INVALID_KEY : YES;
}
