#define SANDBAR_SHORT_NAMES
#include "sandbarstove_bpf.h"

/* The whole header is copied, and read from the copy. */
struct header {
  struct front front;
  struct tail tail;
};

uint64_t authorise(const struct front *f, const struct tail *t, uint64_t port) {
  struct header h;
  (void)port;
  __builtin_memcpy(&h.front, f, sizeof *f);
  __builtin_memcpy(&h.tail, t, sizeof *t);
  return (h.front.key ^ h.tail.initiator ^ h.tail.crc) & 7 && address_of(&h.tail) % 3 ? YES : NOT_AUTHORISED;
}
