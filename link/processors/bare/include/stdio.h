/* What the test programs ask of a C library, where there is none: bare.c. */
#ifndef BARE_STDIO_H
#define BARE_STDIO_H
#include <stddef.h>
typedef struct file FILE;
FILE *fopen(const char *path, const char *mode);
int fclose(FILE *file);
char *fgets(char *line, int size, FILE *file);
int printf(const char *format, ...) __attribute__((format(printf, 1, 2)));
int sprintf(char *to, const char *format, ...) __attribute__((format(printf, 2, 3)));
#endif
