/* What the loop of flight asks of a board and of its instrument. */
#ifndef FLIGHT_H
#define FLIGHT_H

#include "sandbarstove.h"

#include <stdbool.h>

/* The loop. The board calls it when memory is laid and the link is there. */
_Noreturn void flight_main(void);

/* What is told to the ground beside the entries of journals. */
enum flight_event {
  FLIGHT_LINK = 1,  /* the reader of frames was damaged: the link is closed, and opened anew */
  FLIGHT_MEMORY,    /* memory for a packet was refused, so all journals are turned: its bytes */
  FLIGHT_LOST,      /* a packet is lost: there is no memory for it, though all journals were turned */
  FLIGHT_FOUND,     /* a scrub before a packet found a program that is not whole: what it found, the slot */
  FLIGHT_PROGRAMS,  /* a scrub of all found such programs: a bit a slot in each byte: mended, withdrawn, restored */
  FLIGHT_DAMAGED,   /* an entry is not as it was made: its bank, its place in the journal */
  FLIGHT_QUOTA      /* what is left of a quota: its place in node_quotas, how many */
};
void flight_tell(enum flight_event event, uint32_t which, uint64_t number);

/* Keeps an entry of a bank's journal with its packet, for the ground. */
void flight_keep(uint8_t bank, const sandbar_entry *entry, const uint8_t *packet);

/* Sets the watchdog back. It resets the board if that is not done for longer than a packet takes at most. */
void flight_kick(void);

/* Closes the connection, and opens it again. No byte that was sent before comes then. */
void flight_link(void);

/* The next byte of the link. While it waits it sets the watchdog back. */
uint8_t flight_get(void);

/* Sends bytes. */
void flight_put(const uint8_t *bytes, size_t length);

/* Begins anew from ROM, since a call did not do what it always does: the code of the call. */
_Noreturn void flight_reset(uint32_t code);

#endif
