/* What the test programs ask of a C library, where there is none: bare.c. */
#ifndef BARE_STDLIB_H
#define BARE_STDLIB_H
#define EXIT_SUCCESS 0
#define EXIT_FAILURE 1
unsigned long strtoul(const char *digits, char **end, int base);
_Noreturn void exit(int status);
#endif
