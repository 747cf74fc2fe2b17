#define SANDBAR_SHORT_NAMES
#include "sandbarstove_bpf.h"

/* A table on the stack that is written at each run, and searched by a loop. */
uint64_t authorise(const struct front *f, const struct tail *t, uint64_t port) {
  volatile uint8_t allowed[6];
  uint64_t i = 6;
  (void)f, (void)port;
  allowed[0] = 0x67, allowed[1] = 0x68, allowed[2] = 0x70, allowed[3] = 0xFE, allowed[4] = 0x20, allowed[5] = 0x33;
next:
  if (allowed[i - 1] == t->initiator) return YES;
  AGAIN(i, next);
  return NOT_AUTHORISED;
}
