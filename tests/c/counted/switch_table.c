#define SANDBAR_SHORT_NAMES
#include "sandbarstove_bpf.h"
/* A switch of which clang makes a table of its own. */
uint64_t authorise(const struct front *front, const struct tail *tail, uint64_t port) {
  switch (tail->initiator) {
    case 0x67: return 0; case 0x68: return 10; case 0x69: return 3; case 0x6A: return 12; case 0x6B: return 0;
    case 0x6C: return 10; case 0x6D: return 3; case 0x6E: return 0; case 0x6F: return 12; case 0x70: return 10;
    default: return front->key == 0x20 ? YES : NOT_AUTHORISED;
  }
}
