#define SANDBAR_SHORT_NAMES
#include "sandbarstove_bpf.h"

/* Numbers with a sign: how far the address lies from the middle of the bank, and in which direction. */
uint64_t authorise(const struct front *f, const struct tail *t, uint64_t port) {
  int32_t from = (int32_t)(address_of(t) - 0xA0008000);
  int64_t far = from < 0 ? -(int64_t)from : from;
  (void)f;
  if (from >> 8 < -0x40) return port ? YES : NOT_AUTHORISED;
  return far < 0x6000 && from != -0x7000 ? YES : INVALID_TARGET;
}
