#define SANDBAR_SHORT_NAMES
#include "sandbarstove_bpf.h"

/* Ways out at the end, as C has them where there are no exceptions. */
uint64_t authorise(const struct front *f, const struct tail *t, uint64_t port) {
  uint64_t verdict = NOT_AUTHORISED;
  if (port > 2) goto out;
  if (f->key != 0x20 && f->key != 0x21) {
    verdict = INVALID_KEY;
    goto out;
  }
  if (t->extended) goto target;
  if (t->initiator < 0x67 || t->initiator > 0x71) goto out;
  verdict = YES;
  goto out;
target:
  verdict = INVALID_TARGET;
out:
  return verdict;
}
