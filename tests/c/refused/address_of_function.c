#define SANDBAR_SHORT_NAMES
#include "sandbarstove_bpf.h"

__attribute__((noinline, section("elsewhere"))) static uint64_t judge(const struct tail *t) { return t->crc; }
uint64_t authorise(const struct front *f, const struct tail *t, uint64_t port) {
  uint64_t (*volatile judges)(const struct tail *) = judge;
  return judges(t);
}
