/* Refuses memory to a program into which it is preloaded. The request of number REFUSE is answered with null, and with FROM set
   each one behind it too. Requests are numbered from the start with WHOLE set; else between two marks, which are requests of sizes
   that nothing else asks for (crates/test_refusals/src/tests/marks.rattle). At the end it says how many there were, and of how many
   bytes. It includes nothing, so that the toolchain's compiler can make it too. */
#define BEGIN 60013
#define END 60017
#define LAST_OF_ALL (1L << 62)
#define STANDARD_ERROR 2
#define EXIT_GROUP 231

typedef unsigned long size;

extern void *__libc_malloc(size length);
extern void *__libc_realloc(void *old, size length);
extern char *getenv(const char *name);
extern long atol(const char *text);
extern int snprintf(char *text, size most, const char *form, ...);
extern long write(int file, const void *bytes, size length);
extern long syscall(long number, ...);

static _Atomic _Bool counts;
static _Atomic long marks;
static _Atomic long requests;
static _Atomic long bytes;
static long first;
static long last;

__attribute__((constructor)) static void read_numbers(void) {
  const char *number = getenv("REFUSE");
  first = number ? atol(number) : 0;
  last = getenv("FROM") ? LAST_OF_ALL : first;
  counts = getenv("WHOLE") != 0;
}

static void say(void) {
  char line[120];
  int length = snprintf(line, sizeof line, "marks %ld requests %ld bytes %ld\n", (long)marks, (long)requests, (long)bytes);
  if (write(STANDARD_ERROR, line, (size)length) != length) __builtin_trap();
}

__attribute__((destructor)) static void end(void) { say(); }

/* A program that may start threads leaves by this call, which runs no destructor. */
void _exit(int status) {
  say();
  for (;;) syscall(EXIT_GROUP, status);
}

/* Whether this request is to be refused. */
static _Bool refuses(size length) {
  if (length == BEGIN || length == END) {
    marks++;
    counts = length == BEGIN;
    return 0;
  }
  if (!counts) return 0;
  long number = ++requests;
  bytes += (long)length;
  return first <= number && number <= last;
}

void *malloc(size length) { return refuses(length) ? 0 : __libc_malloc(length); }

void *realloc(void *old, size length) { return refuses(length) ? 0 : __libc_realloc(old, length); }
