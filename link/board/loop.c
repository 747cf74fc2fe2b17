/* A target on a board without an OS: packets come in frames (docs/LIVE.md, Frames) over a UART, and replies go back so. All
 * memory is static: a node of one bank and a reader of frames, over pool.c. */
#include "board.h"

#include "sandbarstove.h"
#include "sandbarstove_frames.h"

#include <stddef.h>

/* Yes to every command: mov r0, 0; exit. */
static const uint8_t yes[] = {0x42, 0x50, 0x46, 0x41, 1, 0, 2, 0, 2, 0, 0, 0, 0, 0, 0, 0,
                              0xB7, 0, 0, 0, 0, 0, 0, 0, 0x95, 0, 0, 0, 0, 0, 0, 0};
static const sandbar_bank bank = {0xA0000000u, 65536, 16}; /* base, bytes, entries of its journal */
static sandbar_node node;
static sandbar_frames frames;
static uint8_t packet[SANDBAR_MAX_PACKET], reply[SANDBAR_MAX_REPLY];
volatile uint32_t board_lost;

static void send(uint32_t length) {
  uint8_t head[SANDBAR_FRAME_HEAD];
  sandbar_frames_head(length, head);
  for (size_t k = 0; k < sizeof head; k += 1) board_put(head[k]);
  for (size_t k = 0; k < length; k += 1) board_put(reply[k]);
}

/* A journal is turned over when it is full, or when memory is refused; what is wanted of its entries is sent first
 * (sandbar_entry_at). Here it is nothing. A turn with no more room than before asks for no memory. */
static void turn(uint8_t number) {
  uint32_t code = sandbar_rotate(&node, number, bank.room);
  if (code != SANDBAR_OK) board_stop(code);
}

/* Where memory is refused the packet was not served: it is served again when the entries are gone. If there is no memory then
 * either, the packet is lost, and counted; nothing is sent, and the next one is taken. */
static void serve(const sandbar_came *came) {
  sandbar_served served;
  uint32_t code = sandbar_serve(&node, 0, packet, came->length, came->end, reply, sizeof reply, &served);
  if (code == SANDBAR_NO_MEMORY) {
    turn(0);
    code = sandbar_serve(&node, 0, packet, came->length, came->end, reply, sizeof reply, &served);
  }
  if (code == SANDBAR_NO_MEMORY) {
    board_lost += 1;
    return;
  }
  if (code != SANDBAR_OK) board_stop(code);
  if (served.reply_length > 0) send(served.reply_length);
  if (served.place == SANDBAR_AT_BANK && served.room == 0) turn(served.extended);
}

_Noreturn void board_main(void) {
  sandbar_why why;
  const sandbar_map none = {0, 0};
  uint32_t code = sandbar_open(&node, 0xFE, 1, &bank, 1, &none, 0, yes, sizeof yes, &why);
  if (code == SANDBAR_OK) code = sandbar_frames_open(&frames);
  if (code != SANDBAR_OK) board_stop(code);
  for (;;) {
    sandbar_came came;
    uint8_t byte = board_get();
    code = sandbar_frames_take(&frames, &byte, 1, packet, sizeof packet, &came);
    if (code != SANDBAR_OK) board_stop(code);
    if (came.kind == SANDBAR_PACKET) serve(&came); /* a time code, or for a bridge: nothing */
  }
}
