/* What the test programs ask of a C library, where there is none: bare.c. */
#ifndef BARE_INTTYPES_H
#define BARE_INTTYPES_H
#include <stdint.h>
#ifdef __arm__
#define PRIu32 "lu"
#else
#define PRIu32 "u"
#endif
#endif
