/* A Cortex-M4 as QEMU's mps2-an386 has it: its table of vectors, its start, and its UART (ARM's CMSDK). */
#include "board.h"

#include <stddef.h>

extern uint32_t data_load[], data_from[], data_to[], bss_from[], bss_to[], stack_from[], stack_to[];

_Noreturn void board_start(void);

static volatile uint32_t *const uart = (volatile uint32_t *)0x40004000u; /* data, state, control, interrupts, divisor */
volatile uint32_t board_stopped;

uint8_t board_get(void) {
  while ((uart[1] & 2) == 0) {}
  return (uint8_t)uart[0];
}

void board_put(uint8_t byte) {
  while ((uart[1] & 1) != 0) {}
  uart[0] = byte;
}

_Noreturn void board_stop(uint32_t why) {
  board_stopped = why;
  for (;;) {}
}

_Noreturn void sandbar_trap(int why) { board_stop(256 + (uint32_t)why); }

static _Noreturn void fault(void) { board_stop(512); }

/* What comes of the processor's timer, and of a byte of the UART, if a program asks for these interrupts. */
void board_tick(void);
void board_byte(void);
__attribute__((weak)) void board_tick(void) {}
__attribute__((weak)) void board_byte(void) {}

/* What the stack has not used yet is C5, so that a debugger sees how much it has. */
_Noreturn void board_start(void) {
  uint32_t here;
  for (uint32_t *at = stack_from; (uintptr_t)at < (uintptr_t)&here - 64; at += 1) *at = 0xC5C5C5C5u;
  for (uint32_t *at = data_from, *from = data_load; at < data_to; at += 1, from += 1) *at = *from;
  for (uint32_t *at = bss_from; at < bss_to; at += 1) *at = 0;
  uart[4] = 16;
  uart[2] = 3;
  board_main();
}

/* Where the stack ends, the start, and what comes of each fault. */
__attribute__((section(".start"), used)) static const struct {
  uint32_t *stack;
  void (*start)(void);
  void (*faults[13])(void);
  void (*tick)(void);
  void (*byte)(void);
} vectors = {stack_to, board_start, {fault, fault, fault, fault, fault}, board_tick, board_byte};
