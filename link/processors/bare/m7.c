/* A Cortex-M7: where its stack ends, where it starts, and what comes of a fault. */
#include <stdlib.h>

extern char stack_top[];
void bare_start(void);
static void fault(void) { exit(EXIT_FAILURE); }

__attribute__((section(".start"), used)) static const void *const vectors[16] = {
    stack_top, (const void *)bare_start, (const void *)fault, (const void *)fault,
    (const void *)fault, (const void *)fault, (const void *)fault};
