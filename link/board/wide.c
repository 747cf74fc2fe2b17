/* What compilers call for numbers that are wider than the processor's, and to count bits without an instruction for it. In GCC's own
 * library for SPARC most of these are for v8+, and a program with one of them is no program for a LEON3. */
#include <stdint.h>

#if UINTPTR_MAX == UINT32_MAX

typedef union {
  uint64_t whole;
  struct {
#if __BYTE_ORDER__ == __ORDER_BIG_ENDIAN__
    uint32_t high, low;
#else
    uint32_t low, high;
#endif
  } half;
} pair;

uint64_t __ashldi3(uint64_t a, int by);
uint64_t __lshrdi3(uint64_t a, int by);
int64_t __ashrdi3(int64_t a, int by);
uint64_t __muldi3(uint64_t a, uint64_t b);
int __clzdi2(uint64_t a);
int __clzsi2(uint32_t a);
int __popcountsi2(uint32_t a);
uint64_t __udivdi3(uint64_t a, uint64_t b);
uint64_t __umoddi3(uint64_t a, uint64_t b);
int64_t __divdi3(int64_t a, int64_t b);
int64_t __moddi3(int64_t a, int64_t b);

uint64_t __ashldi3(uint64_t a, int by) {
  pair p = {a};
  if (by >= 32) p.half.high = p.half.low << (by - 32), p.half.low = 0;
  else if (by > 0) p.half.high = p.half.high << by | p.half.low >> (32 - by), p.half.low <<= by;
  return p.whole;
}

uint64_t __lshrdi3(uint64_t a, int by) {
  pair p = {a};
  if (by >= 32) p.half.low = p.half.high >> (by - 32), p.half.high = 0;
  else if (by > 0) p.half.low = p.half.low >> by | p.half.high << (32 - by), p.half.high >>= by;
  return p.whole;
}

int64_t __ashrdi3(int64_t a, int by) {
  uint64_t sign = a < 0 && by > 0 ? ~(uint64_t)0 : 0;
  return (int64_t)(__lshrdi3((uint64_t)a, by) | (by > 0 ? __ashldi3(sign, 64 - by) : 0));
}

uint64_t __muldi3(uint64_t a, uint64_t b) {
  uint64_t sum = 0;
  for (; b != 0; b = __lshrdi3(b, 1), a = a + a)
    if ((uint32_t)b & 1) sum += a;
  return sum;
}

int __clzsi2(uint32_t a) {
  int zeros = 0;
  for (uint32_t bit = 0x80000000u; bit != 0 && (a & bit) == 0; bit >>= 1) zeros += 1;
  return zeros;
}

int __clzdi2(uint64_t a) {
  pair p = {a};
  return p.half.high != 0 ? __clzsi2(p.half.high) : 32 + __clzsi2(p.half.low);
}

int __popcountsi2(uint32_t a) {
  int ones = 0;
  for (uint32_t bit = 0x80000000u; bit != 0; bit >>= 1) ones += (a & bit) != 0;
  return ones;
}

/* The quotient, and the rest. */
static uint64_t divided(uint64_t a, uint64_t b, uint64_t *rest) {
  uint64_t quotient = 0, left = 0;
  for (int bit = 63; bit >= 0; bit -= 1) {
    uint64_t carried = __lshrdi3(left, 63);
    left = left + left + (__lshrdi3(a, bit) & 1);
    quotient += quotient;
    if (carried != 0 || left >= b) left -= b, quotient += 1;
  }
  *rest = left;
  return quotient;
}

uint64_t __udivdi3(uint64_t a, uint64_t b) {
  uint64_t rest;
  return divided(a, b, &rest);
}

uint64_t __umoddi3(uint64_t a, uint64_t b) {
  uint64_t rest;
  divided(a, b, &rest);
  return rest;
}

static uint64_t size_of(int64_t a) { return a < 0 ? 0 - (uint64_t)a : (uint64_t)a; }

int64_t __divdi3(int64_t a, int64_t b) {
  uint64_t quotient = __udivdi3(size_of(a), size_of(b));
  return (int64_t)((a < 0) == (b < 0) ? quotient : 0 - quotient);
}

int64_t __moddi3(int64_t a, int64_t b) {
  uint64_t rest = __umoddi3(size_of(a), size_of(b));
  return (int64_t)(a < 0 ? 0 - rest : rest);
}

#endif
