#define SANDBAR_SHORT_NAMES
#include "sandbarstove_bpf.h"

/* Fields of bits of the instruction byte. */
struct instruction {
  uint8_t reply_length : 2, increment : 1, reply : 1, verify : 1, write : 1, type : 2;
};

uint64_t authorise(const struct front *f, const struct tail *t, uint64_t port) {
  struct instruction i;
  (void)port;
  __builtin_memcpy(&i, &f->instruction, 1);
  if (i.type != 1 || i.reply_length > 1) return INVALID_TARGET;
  if (i.write && !i.verify) return length_of(t) <= 4 ? YES : NOT_AUTHORISED;
  return i.increment && i.reply ? YES : INVALID_KEY;
}
