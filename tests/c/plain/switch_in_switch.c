#define SANDBAR_SHORT_NAMES
#include "sandbarstove_bpf.h"

/* Switches in a switch, with cases that fall through. */
uint64_t authorise(const struct front *f, const struct tail *t, uint64_t port) {
  switch (kind_of(f)) {
    case READ:
      switch (port) {
        case 0: case 1: return YES;
        case 2:
          if (t->initiator == 0x67) return YES;
          /* fall through */
        default: return f->key ? INVALID_KEY : YES;
      }
    case WRITE:
      switch (f->key) {
        case 0x20: return length_of(t) <= 8 ? YES : NOT_AUTHORISED;
        case 0x21: return length_of(t) <= 4 ? YES : NOT_AUTHORISED;
        case 0x22: return t->initiator & 1 ? YES : INVALID_TARGET;
        default: return INVALID_KEY;
      }
    default: return NOT_AUTHORISED;
  }
}
