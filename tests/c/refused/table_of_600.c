#define SANDBAR_SHORT_NAMES
#include "sandbarstove_bpf.h"
static const uint16_t limits[300] = {[3] = 7, [299] = 9};
uint64_t authorise(const struct front *f, const struct tail *t, uint64_t port) { return limits[t->crc] < f->key ? YES : INVALID_KEY; }
