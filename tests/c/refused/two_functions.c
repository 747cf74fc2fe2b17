#define SANDBAR_SHORT_NAMES
#include "sandbarstove_bpf.h"

uint64_t reads(const struct front *f, const struct tail *t, uint64_t port) { return t->crc & 1; }
uint64_t writes(const struct front *f, const struct tail *t, uint64_t port) { return t->crc & 2; }
__attribute__((section("boot"))) uint64_t third(const struct front *f, const struct tail *t, uint64_t port) { return t->crc & 4; }
