/* A node in a program: it opens, serves a packet and prints the reply. docs/EMBEDDING.md shows it. */
#include "sandbarstove.h"

#include <stdio.h>

/* The image of the program that judges, as `rmapctl asm` writes it of `.budget 2`, `mov r0, 0`, `exit`: yes to each command. */
static const uint8_t image[] = {0x42, 0x50, 0x46, 0x41, 1, 0, 2, 0, 2, 0, 0, 0, 0, 0, 0, 0,
                                0xB7, 0, 0, 0, 0, 0, 0, 0, 0x95, 0, 0, 0, 0, 0, 0, 0};
/* The packet that a link brings: a read of 4 bytes, as `rmapctl packet read A0000000 4` makes it. */
static const uint8_t packet[] = {0xFE, 0x01, 0x4C, 0, 0x67, 0, 0, 0, 0xA0, 0, 0, 0, 0, 0, 0x04, 0xFE};
static uint8_t reply[SANDBAR_MAX_REPLY];
static sandbar_node node; /* zeros before it is opened */

int main(void) {
  const sandbar_bank bank = {0xA0000000u, 65536, 1024}; /* its first address, its bytes, the room of its journal */
  const sandbar_map none = {0, 0};                      /* no pointer may be null, also of no maps */
  sandbar_why why;
  sandbar_served served;
  uint32_t code = sandbar_open(&node, 0xFE, 1, &bank, 1, &none, 0, image, sizeof image, &why);
  if (code != SANDBAR_OK) return (int)code;
  code = sandbar_serve(&node, 0, packet, sizeof packet, SANDBAR_EOP, reply, sizeof reply, &served);
  if (code != SANDBAR_OK) return (int)code;
  for (uint32_t i = 0; i < served.reply_length; i += 1) printf("%02X", reply[i]); /* send these bytes, and an EOP */
  printf("\n");
  return (int)sandbar_close(&node);
}
