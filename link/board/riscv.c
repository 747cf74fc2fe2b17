/* A RISC-V of 32 or 64 bits in machine mode as QEMU's virt has it: its start, and its UART (a 16550). */
#include "board.h"

#include <stddef.h>

extern uint32_t bss_from[], bss_to[], stack_from[];

_Noreturn void board_begin(void);

static volatile uint8_t *const uart = (volatile uint8_t *)0x10000000u;
volatile uint32_t board_stopped;

__asm__(
    ".section .start, \"ax\"\n"
    ".option arch, +zicsr\n"
    ".globl board_start\n"
    "board_start:\n"
    "  la sp, stack_to\n"
    "  la t0, board_fault\n"
    "  csrw mtvec, t0\n"
    "  j board_begin\n"
    "  .balign 4\n"
    "board_fault:\n"
    "  li a0, 512\n"
    "  j board_stop\n"
    ".text\n");

uint8_t board_get(void) {
  while ((uart[5] & 1) == 0) {}
  return uart[0];
}

void board_put(uint8_t byte) {
  while ((uart[5] & 32) == 0) {}
  uart[0] = byte;
}

_Noreturn void board_stop(uint32_t why) {
  board_stopped = why;
  for (;;) {}
}

_Noreturn void sandbar_trap(int why) { board_stop(256 + (uint32_t)why); }

/* What the stack has not used yet is C5, so that a debugger sees how much it has. */
_Noreturn void board_begin(void) {
  uint32_t here;
  for (uint32_t *at = stack_from; (uintptr_t)at < (uintptr_t)&here - 64; at += 1) *at = 0xC5C5C5C5u;
  for (uint32_t *at = bss_from; at < bss_to; at += 1) *at = 0;
  board_main();
}
