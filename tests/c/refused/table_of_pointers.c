#define SANDBAR_SHORT_NAMES
#include "sandbarstove_bpf.h"
static const uint8_t low[4] = {1, 2, 3, 4}, high[4] = {9, 8, 7, 6};
static const uint8_t *const both[2] = {low, high};
uint64_t authorise(const struct front *f, const struct tail *t, uint64_t port) { return both[port & 1][f->key & 3] < t->crc ? YES : INVALID_KEY; }
