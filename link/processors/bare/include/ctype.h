/* What the test programs ask of a C library, where there is none: bare.c. */
#ifndef BARE_CTYPE_H
#define BARE_CTYPE_H
int isxdigit(int c);
#endif
