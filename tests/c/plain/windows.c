#define SANDBAR_SHORT_NAMES
#include "sandbarstove_bpf.h"

/* Windows as values of a struct, each asked by a function. */
struct window {
  uint32_t low, high;
  uint8_t key;
};

SANDBAR_ALWAYS_INLINE int holds(struct window w, uint64_t first, uint64_t last) { return first >= w.low && last <= w.high; }

SANDBAR_ALWAYS_INLINE uint64_t verdict_of(struct window w, const struct front *f) { return f->key == w.key ? YES : INVALID_KEY; }

uint64_t authorise(const struct front *f, const struct tail *t, uint64_t port) {
  const struct window state = {0xA0000000, 0xA00003FF, 0x20}, data = {0xA0004000, 0xA0007FFF, 0x21};
  const struct window boot = {0xA0008000, 0xA00080FF, 0x22};
  uint64_t first = address_of(t), last = first + length_of(t) - 1;
  (void)port;
  if (holds(state, first, last)) return verdict_of(state, f);
  if (holds(data, first, last)) return verdict_of(data, f);
  return holds(boot, first, last) ? verdict_of(boot, f) : NOT_AUTHORISED;
}
