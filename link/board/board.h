/* What the loop asks of a board. */
#ifndef BOARD_H
#define BOARD_H

#include <stdint.h>

/* The loop, which the start file calls when memory is laid and the UART is ready. */
_Noreturn void board_main(void);

/* The next byte of the UART: it waits for one. */
uint8_t board_get(void);

/* Sends a byte: it waits until the UART takes one. */
void board_put(uint8_t byte);

/* How many packets were lost, since memory was refused also when the journal had been turned. A debugger finds it. */
extern volatile uint32_t board_lost;

/* Nothing can go on: the code of a call, or 256 and the number of a trap. A debugger finds it in `board_stopped`. */
_Noreturn void board_stop(uint32_t why);

#endif
