#define SANDBAR_SHORT_NAMES
#include "sandbarstove_bpf.h"

/* Conditions in conditions. */
uint64_t authorise(const struct front *f, const struct tail *t, uint64_t port) {
  uint32_t a = address_of(t), n = length_of(t);
  if (kind_of(f) == READ) {
    if (a < 0xA0001000) {
      if (n > 8) {
        if (port == 0) return YES;
        if (t->initiator == 0x67) return f->key ? INVALID_KEY : YES;
        return NOT_AUTHORISED;
      }
      return YES;
    }
    if (a < 0xA0002000 && !(a & 1)) return port & 1 ? YES : INVALID_TARGET;
    return YES;
  }
  if (kind_of(f) == WRITE) {
    if (n == 0) return YES;
    if (a >= 0xA0004000)
      if (t->initiator >= 0x68)
        if (f->key == 0x21 || f->key == 0x22) return YES;
    return a < 0xA0000200 ? YES : NOT_AUTHORISED;
  }
  return f->key == 0x20 ? YES : INVALID_KEY;
}
