/* The board of flight.c as QEMU's mps2-an386 has it, beside cortex-m.c: the link is its first UART. What is told to the ground goes out of the
 * second one, in records: E and an entry, T and an event, R and the code of a reset. Numbers have the lowest byte first. */
#include "board.h"
#include "flight.h"

static volatile uint32_t *const link_uart = (volatile uint32_t *)0x40004000u;   /* data, state, control, interrupts, divisor */
static volatile uint32_t *const ground_uart = (volatile uint32_t *)0x40005000u; /* the same */
static volatile uint32_t *const reset_control = (volatile uint32_t *)0xE000ED0Cu;
static volatile uint32_t *const timer = (volatile uint32_t *)0xE000E010u; /* control, from, now */

static volatile uint32_t *const enabled = (volatile uint32_t *)0xE000E100u; /* interrupts, a bit each: 0 is a byte of the link */

/* How often the timer may come round before the watchdog bites: 100 times 0.25 seconds, since QEMU is not alone here. */
enum { TIMER_FROM = 6250000, PATIENCE = 100 };
static volatile uint32_t ticks, kicked;

/* The bytes that came and were not taken: the interrupt puts them in, and the loop takes them out. */
enum { RING = 16384 };
static volatile uint8_t ring[RING];
static volatile uint32_t came, taken;

static void ground_put(uint8_t byte) {
  while ((ground_uart[1] & 1) != 0) {}
  ground_uart[0] = byte;
}

static void ground_number(uint64_t number, int bytes) {
  for (int k = 0; k < bytes; k += 1) ground_put((uint8_t)(number >> 8 * k));
}

void flight_tell(enum flight_event event, uint32_t which, uint64_t number) {
  ground_put('T');
  ground_number((uint64_t)event, 1);
  ground_number(which, 4);
  ground_number(number, 8);
}

void flight_keep(uint8_t bank, const sandbar_entry *entry, const uint8_t *packet) {
  ground_put('E');
  ground_put(bank);
  ground_number(entry->number, 8);
  ground_number(entry->verdict, 8);
  ground_number(entry->generation, 4);
  ground_put(entry->status);
  ground_number(entry->packet_length, 4);
  for (uint32_t k = 0; k < entry->packet_length; k += 1) ground_put(packet[k]);
}

void flight_kick(void) { kicked = ticks; }

void board_byte(void) {
  link_uart[3] = 2;
  while ((link_uart[1] & 2) != 0) {
    ring[came % RING] = (uint8_t)link_uart[0];
    came += 1;
  }
}

/* A UART has no connection: here a second without a byte ends one. What comes until then is dropped. */
void flight_link(void) {
  for (uint32_t since = ticks; ticks - since < 5; flight_kick())
    if (taken != came) taken = came, since = ticks;
  flight_tell(FLIGHT_LINK, 0, 0);
}

uint8_t flight_get(void) {
  while (taken == came) {
    __asm__ volatile("wfi");
    flight_kick();
  }
  taken += 1;
  return ring[(taken - 1) % RING];
}

void flight_put(const uint8_t *bytes, size_t length) {
  for (size_t k = 0; k < length; k += 1) board_put(bytes[k]);
}

_Noreturn void flight_reset(uint32_t code) {
  ground_put('R');
  ground_number(code, 4);
  *reset_control = 0x05FA0004u;
  for (;;) {}
}

/* The watchdog: the timer of the processor. */
void board_tick(void) {
  ticks += 1;
  if (ticks - kicked == PATIENCE) flight_reset(0);
}

_Noreturn void board_main(void) {
  ground_uart[4] = 16;
  ground_uart[2] = 1;
  link_uart[2] = 11;
  *enabled = 1;
  timer[1] = TIMER_FROM;
  timer[2] = 0;
  timer[0] = 7;
  flight_main();
}
