#include "sandbarstove_bpf.h"

SANDBAR_COUNTERS(0, front, 32);
SANDBAR_PEAKS(1, tail, 8);

/* The names of the header have a prefix, so that a program may use the short ones for itself. */
uint64_t authorise(const struct sandbar_front *ticket, const struct sandbar_tail *map, uint64_t port) {
  uint64_t i = 5, count = sandbar_length_of(map), kind = (uint64_t)sandbar_kind_of(ticket);
next:
  count += sandbar_ticket(&front, port);
  SANDBAR_AGAIN(i, next);
  if (sandbar_peak(&tail, port & 7, count) > 90) return SANDBAR_INVALID_KEY;
  if (kind == SANDBAR_KIND_READ) return SANDBAR_YES;
  return sandbar_count(&front, 3) < 50 ? SANDBAR_YES : SANDBAR_NOT_AUTHORISED;
}
