/* memcpy, memmove and memset, where the compiler brings no C library. */
#include <string.h>

#ifdef __GNUC__ /* or GCC makes the loop of each a call of itself */
#pragma GCC optimize("no-tree-loop-distribute-patterns")
#endif

void *memcpy(void *to, const void *from, size_t length) {
  char *t = to;
  const char *f = from;
  for (size_t k = 0; k < length; k += 1) t[k] = f[k];
  return to;
}

void *memmove(void *to, const void *from, size_t length) {
  char *t = to;
  const char *f = from;
  if (t < f) return memcpy(to, from, length);
  for (size_t k = length; k > 0; k -= 1) t[k - 1] = f[k - 1];
  return to;
}

void *memset(void *to, int byte, size_t length) {
  for (size_t k = 0; k < length; k += 1) ((char *)to)[k] = (char)byte;
  return to;
}
