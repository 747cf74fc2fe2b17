#define SANDBAR_SHORT_NAMES
#include "sandbarstove_bpf.h"
/* Sixteen ranges in a table of constants, and a `for` over it. */
struct range { uint32_t low, high; uint8_t initiator, key; };
static const struct range ranges[16] = {
  {0xA0000000, 0xA00000FF, 0x67, 0x20}, {0xA0000100, 0xA00001FF, 0x67, 0x21}, {0xA0001000, 0xA00017FF, 0x68, 0x20}, {0xA0001800, 0xA0001FFF, 0x68, 0x22},
  {0xA0004000, 0xA000400F, 0x67, 0x20}, {0xA0008000, 0xA00080FF, 0x69, 0x20}, {0xA000FF00, 0xA000FFFF, 0x70, 0x20}, {0xA000F000, 0xA000F00F, 0x67, 0x20},
  {0xA0000000, 0xA0000FFF, 0x69, 0x33}, {0xA0002000, 0xA0002FFF, 0x67, 0x20}, {0xA0003000, 0xA0003FFF, 0x42, 0x20}, {0xA0005000, 0xA0005FFF, 0x68, 0x21},
  {0xA0006000, 0xA0006FFF, 0x67, 0x00}, {0xA0007000, 0xA0007FFF, 0x68, 0x20}, {0xA0009000, 0xA0009FFF, 0x67, 0x20}, {0xA000A000, 0xA000AFFF, 0x70, 0x20},
};
uint64_t authorise(const struct front *front, const struct tail *tail, uint64_t port) {
  uint32_t address = address_of(tail), length = length_of(tail);
  for (unsigned i = 0; i < sizeof ranges / sizeof ranges[0]; i++) {
    const struct range *r = &ranges[i];
    if (tail->initiator == r->initiator && address >= r->low && (uint64_t)address + length <= (uint64_t)r->high + 1)
      return front->key == r->key ? YES : INVALID_KEY;
  }
  return NOT_AUTHORISED;
}
