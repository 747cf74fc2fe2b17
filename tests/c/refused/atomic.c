#define SANDBAR_SHORT_NAMES
#include "sandbarstove_bpf.h"

uint64_t authorise(const struct front *f, const struct tail *t, uint64_t port) {
  uint64_t sum = t->crc;
  __sync_fetch_and_add(&sum, port);
  return sum & 1;
}
