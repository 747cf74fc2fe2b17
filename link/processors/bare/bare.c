/* A processor without an operating system and without a C library, as QEMU has it: the words of C that the test programs use,
 * the files that they read, which are part of the program, and a way to print and to end. */
#include <ctype.h>
#include <stdarg.h>
#include <stdbool.h>
#include <stdint.h>
#include <stdio.h>
#include <stdlib.h>
#include <string.h>

int main(int count, char **words);
_Noreturn void sandbar_trap(int why);
void bare_start(void);

/* ---- the board */

#if defined(__sparc__)
static void put_byte(char c) {
  volatile uint32_t *const uart = (volatile uint32_t *)0x80000100u;
  uart[2] = 2; /* may send */
  uart[0] = (uint8_t)c;
}

/* A trap while traps are off ends QEMU's LEON3. */
static _Noreturn void halt(int status) {
  (void)status;
  for (;;) __asm__ volatile("wr %%g0, 0xFC0, %%psr\n nop\n nop\n nop\n ta 0" ::: "memory");
}
#else
static uintptr_t semihost(uintptr_t call, const void *with) {
#if defined(__riscv)
  register uintptr_t a0 __asm__("a0") = call;
  register const void *a1 __asm__("a1") = with;
  __asm__ volatile(".option push\n .option norvc\n .balign 16\n slli x0, x0, 0x1f\n ebreak\n srai x0, x0, 7\n .option pop"
                   : "+r"(a0) : "r"(a1) : "memory");
  return a0;
#else
  register uintptr_t r0 __asm__("r0") = call;
  register const void *r1 __asm__("r1") = with;
  __asm__ volatile("bkpt 0xAB" : "+r"(r0) : "r"(r1) : "memory");
  return r0;
#endif
}

static void put_byte(char c) { semihost(3, &c); }

static _Noreturn void halt(int status) {
  const uintptr_t why[2] = {0x20026, (uintptr_t)status};
  for (;;) semihost(0x20, why);
}
#endif

/* ---- the files */

#define FILE_OF(name, path)                                                                              \
  extern const char name[], name##_end[];                                                                \
  __asm__(".section .rodata\n .globl " #name "\n" #name ": .incbin \"" path "\"\n .globl " #name "_end\n" \
          #name "_end: .byte 0\n .text");

FILE_OF(packets, DATA "/packets.txt")
FILE_OF(replies, DATA "/replies.txt")
FILE_OF(calls, DATA "/calls.txt")
FILE_OF(loops, DATA "/loops.txt")
FILE_OF(suite, SUITE)

struct file {
  const char *name, *at, *end;
};

FILE *fopen(const char *path, const char *mode) {
  static struct file files[5];
  const struct file all[5] = {{"packets", packets, packets_end}, {"replies", replies, replies_end},
                              {"calls", calls, calls_end}, {"loops", loops, loops_end},
                              {"suite", suite, suite_end}};
  (void)mode;
  for (int k = 0; k < 5; k += 1)
    if (strcmp(path, all[k].name) == 0) {
      files[k] = all[k];
      return &files[k];
    }
  return NULL;
}

int fclose(FILE *file) { return file == NULL; }

char *fgets(char *line, int size, FILE *file) {
  int at = 0;
  while (at < size - 1 && file->at < file->end) {
    line[at++] = *file->at++;
    if (line[at - 1] == '\n') break;
  }
  line[at] = 0;
  return at == 0 ? NULL : line;
}

/* ---- words of C, beside those of link/board/string.c */

int memcmp(const void *a, const void *b, size_t length) {
  const uint8_t *x = a, *y = b;
  for (size_t k = 0; k < length; k += 1)
    if (x[k] != y[k]) return x[k] - y[k];
  return 0;
}

static size_t length_of(const char *text) {
  size_t length = 0;
  while (text[length] != 0) length += 1;
  return length;
}

int strcmp(const char *a, const char *b) { return memcmp(a, b, length_of(a) + 1); }

char *strstr(const char *in, const char *what) {
  size_t length = length_of(what);
  for (size_t k = 0; k + length <= length_of(in); k += 1)
    if (memcmp(in + k, what, length) == 0) return (char *)(uintptr_t)(in + k);
  return NULL;
}

static int digit(int c) {
  return c >= '0' && c <= '9' ? c - '0' : c >= 'A' && c <= 'F' ? c - 'A' + 10 : c >= 'a' && c <= 'f' ? c - 'a' + 10 : 99;
}

int isxdigit(int c) { return digit(c) < 16; }

unsigned long strtoul(const char *digits, char **end, int base) {
  unsigned long number = 0;
  (void)end;
  for (; digit(*digits) < base; digits += 1) number = number * (unsigned)base + (unsigned)digit(*digits);
  return number;
}

/* Where what is printed goes: a text, or the board. */
static char *to_text;
static int printed;

static void put(char c) {
  printed += 1;
  if (to_text != NULL) *to_text++ = c;
  else put_byte(c);
}

static void put_number(unsigned long n, unsigned base, int width) {
  char digits[24];
  int at = 0;
  for (; n != 0 || at == 0; n /= base) digits[at++] = "0123456789abcdef"[n % base];
  while (at < width) digits[at++] = '0';
  while (at > 0) put(digits[--at]);
}

/* %s, %c, %u, %d, %x and %X, with 0 and a width, l and z. */
static int print(const char *format, va_list list) {
  printed = 0;
  for (; *format != 0; format += 1) {
    if (*format != '%') {
      put(*format);
      continue;
    }
    int width = 0, wide = 0;
    for (format += 1; *format >= '0' && *format <= '9'; format += 1) width = width * 10 + *format - '0';
    for (; *format == 'l' || *format == 'z'; format += 1) wide += 1;
    if (*format == '%') {
      put('%');
      continue;
    }
    if (*format == 's') {
      for (const char *s = va_arg(list, const char *); *s != 0; s += 1) put(*s);
      continue;
    }
    unsigned long n;
    if (wide > 1) n = (unsigned long)va_arg(list, unsigned long long);
    else n = wide == 1 ? va_arg(list, unsigned long) : va_arg(list, unsigned);
    if (*format == 'X') /* two digits alone are printed so */
      for (int k = width - 1; k >= 0; k -= 1) put("0123456789ABCDEF"[n >> 4 * k & 15]);
    else put_number(n, *format == 'x' ? 16 : 10, width);
  }
  return printed;
}

int printf(const char *format, ...) {
  va_list list;
  va_start(list, format);
  to_text = NULL;
  int length = print(format, list);
  va_end(list);
  return length;
}

int sprintf(char *to, const char *format, ...) {
  va_list list;
  va_start(list, format);
  to_text = to;
  int length = print(format, list);
  *to_text = 0;
  to_text = NULL;
  va_end(list);
  return length;
}

_Noreturn void exit(int status) {
  printf("status %d\n", status);
  halt(status);
}

_Noreturn void sandbar_trap(int why) {
  printf("trap %d\n", why);
  exit(EXIT_FAILURE);
}

void bare_start(void) {
  static char *words[] = {"bare", WORDS};
  exit(main((int)(sizeof words / sizeof words[0]), words));
}
