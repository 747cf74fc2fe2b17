/* A driver's loop: packets come from the link, and what the node answers goes back. The link here is standard input
   and output; a packet is its port, its end (0 EOP, 1 EEP), its length in two bytes, the first the highest, and its bytes. */
#include "packets.h"

#include <inttypes.h>
#include <stdio.h>

static const uint8_t yes[] = IMAGE_OF(0);
static const sandbar_bank bank = {0xA0000000u, 65536, 1024};

/* The next packet of the link: its length, or -1 where the link is closed or cut. */
static long receive(uint8_t *port, uint8_t *end, uint8_t *packet) {
  uint8_t head[4];
  if (fread(head, 1, 4, stdin) != 4) return -1;
  size_t length = (size_t)head[2] << 8 | head[3];
  if (length > SANDBAR_MAX_PACKET || fread(packet, 1, length, stdin) != length) return -1;
  *port = head[0];
  *end = head[1];
  return (long)length;
}

static int send_reply(uint8_t port, const uint8_t *reply, uint32_t length) {
  const uint8_t head[4] = {port, SANDBAR_EOP, (uint8_t)(length >> 8), (uint8_t)length};
  return fwrite(head, 1, 4, stdout) == 4 && fwrite(reply, 1, length, stdout) == length && fflush(stdout) == 0;
}

/* What the instrument does when a command was carried out. This one says on standard error what was written. */
static void act(const sandbar_served *served) {
  if (served->place == SANDBAR_AT_BANK && served->command != SANDBAR_READ)
    fprintf(stderr, "%" PRIu32 " bytes at %08" PRIX32 " of bank %u\n", served->length, served->address, served->extended);
}

/* Turns the journal of a bank: what is wanted of its entries is kept first, and its memory is given back then. A turn with
   no more room than before asks for none, so it is done also when all is taken. */
static void turn(sandbar_node *node, uint8_t number) {
  uint32_t code = sandbar_rotate(node, number, bank.room);
  if (code != SANDBAR_OK) fprintf(stderr, "the journal of bank %u is not turned: code %" PRIu32 "\n", number, code);
}

int main(void) {
  static uint8_t packet[SANDBAR_MAX_PACKET], reply[SANDBAR_MAX_REPLY];
  sandbar_node node = {0};
  sandbar_why why;
  sandbar_map none = {0, 0};
  if (sandbar_open(&node, 0xFE, 2, &bank, 1, &none, 0, yes, sizeof yes, &why) != SANDBAR_OK) return 2;

  uint8_t port, end;
  long length;
  int status = 0;
  while ((length = receive(&port, &end, packet)) >= 0) {
    sandbar_served served;
    uint32_t code = sandbar_serve(&node, port, packet, (size_t)length, end, reply, sizeof reply, &served);
    if (code == SANDBAR_NO_MEMORY) { /* the packet was not served: it is served again when the entries are gone */
      turn(&node, 0);
      code = sandbar_serve(&node, port, packet, (size_t)length, end, reply, sizeof reply, &served);
    }
    if (code != SANDBAR_OK) fprintf(stderr, "a packet at port %u is lost: code %" PRIu32 "\n", port, code);
    else {
      if (served.reply_length > 0 && !send_reply(port, reply, served.reply_length)) status = 1;
      if (served.kind == SANDBAR_JUDGED && served.status == 0) act(&served);
      if (served.place == SANDBAR_AT_BANK && served.room == 0) turn(&node, served.extended);
    }
  }
  sandbar_close(&node);
  return status;
}
