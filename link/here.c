/* The board of link/board/loop.c on this machine: its UART is standard input and output, and it ends with the input. */
#include "board/board.h"

#include <inttypes.h>
#include <stdio.h>
#include <stdlib.h>

uint8_t board_get(void) {
  int byte = getchar();
  if (byte == EOF) {
    fprintf(stderr, "packets lost: %" PRIu32 "\n", board_lost);
    exit(EXIT_SUCCESS);
  }
  return (uint8_t)byte;
}

void board_put(uint8_t byte) { putchar(byte); }

_Noreturn void board_stop(uint32_t why) {
  fprintf(stderr, "stopped: %" PRIu32 "\n", why);
  exit(EXIT_FAILURE);
}

int main(void) { board_main(); }
