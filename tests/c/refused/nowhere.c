#define SANDBAR_SHORT_NAMES
#include "sandbarstove_bpf.h"

extern struct map elsewhere;
uint64_t authorise(const struct front *f, const struct tail *t, uint64_t port) {
  return ticket(&elsewhere, 0) > 4;
}
