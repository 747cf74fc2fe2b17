#define SANDBAR_SHORT_NAMES
#include "sandbarstove_bpf.h"

/* As many bytes of the tail as the key says are added up, at most twelve. */
uint64_t authorise(const struct front *front, const struct tail *tail, uint64_t port) {
  const uint8_t *bytes = (const uint8_t *)tail;
  uint64_t sum = 0, i = front->key;
  if (!i) return INVALID_KEY;
  if (i > 12) i = 12;
next:
  sum += bytes[i - 1];
  AGAIN(i, next);
  return sum & 1 ? NOT_AUTHORISED : YES;
}
