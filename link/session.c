/* The first session: a write, a read, a program that is loaded by packets, the journal and its rotation. */
#include "packets.h"

#include <inttypes.h>
#include <stdio.h>
#include <stdlib.h>

static const uint8_t yes[] = IMAGE_OF(0), no[] = IMAGE_OF(10);
static uint8_t packet[SANDBAR_MAX_PACKET], reply[SANDBAR_MAX_REPLY];
static sandbar_node node;

static void print(const char *what, const uint8_t *bytes, size_t length) {
  printf("%s ", what);
  for (size_t i = 0; i < length; i += 1) printf("%02X", bytes[i]);
  printf("\n");
}

/* Serves the packet at a port, prints what comes of it, and gives it. */
static sandbar_served serve(const char *what, uint8_t port, size_t length) {
  sandbar_served served;
  uint32_t code = sandbar_serve(&node, port, packet, length, SANDBAR_EOP, reply, sizeof reply, &served);
  if (code != SANDBAR_OK) {
    printf("%s: code %" PRIu32 "\n", what, code);
    exit(EXIT_FAILURE);
  }
  print(what, reply, served.reply_length);
  return served;
}

static void print_journal(void) {
  sandbar_journal journal;
  sandbar_entry entry;
  if (sandbar_journal_of(&node, 0, &journal) != SANDBAR_OK) exit(EXIT_FAILURE);
  printf("journal of %llu entries, %" PRIu32 " loaded\n", (unsigned long long)journal.entries, journal.loaded);
  for (uint32_t place = 0; place < journal.entries; place += 1) {
    if (sandbar_entry_at(&node, 0, place, packet, sizeof packet, &entry) != SANDBAR_OK) exit(EXIT_FAILURE);
    printf("port %u number %llu generation %" PRIu32 " verdict %llu status %u", entry.port,
           (unsigned long long)entry.number, entry.generation, (unsigned long long)entry.verdict, entry.status);
    print("", packet, entry.packet_length);
  }
}

int main(void) {
  const sandbar_bank bank = {0xA0000000u, 65536, 16};
  const sandbar_map map = {1, 0};
  sandbar_why why;
  uint32_t code = sandbar_open(&node, 0xFE, 2, &bank, 1, &map, 1, yes, sizeof yes, &why);
  printf("open %" PRIu32 "\n", code);
  if (code != SANDBAR_OK) return EXIT_FAILURE;

  const uint8_t data[16] = {0x01, 0x23, 0x45, 0x67, 0x89, 0xAB, 0xCD, 0xEF, 0x10, 0x11, 0x12, 0x13, 0x14, 0x15, 0x16, 0x17};
  serve("write", 0, put_write(packet, 0, 0, 0xA0000000u, data, 16));
  serve("read", 1, put_read(packet, 1, 0, 0xA0000000u, 16));

  /* an image that says no to every read of a bank: staged at port 0, then loaded into slot 0 by a control write */
  const uint8_t control[4] = {0, 0, 0, sizeof no};
  serve("stage", 0, put_write(packet, 2, 0xFF, 0x0000, no, sizeof no));
  serve("load", 0, put_write(packet, 3, 0xFF, 0x10000, control, 4));
  serve("load result", 0, put_read(packet, 4, 0xFF, 0x10000, 8));
  sandbar_served denied = serve("read", 1, put_read(packet, 5, 0, 0xA0000000u, 16));
  printf("status %u by generation %" PRIu32 "\n", denied.status, denied.generation);

  print_journal();
  if (sandbar_rotate(&node, 0, 4) != SANDBAR_OK) return EXIT_FAILURE;
  print_journal();
  printf("close %" PRIu32 "\n", sandbar_close(&node));
  return denied.status == 10 && denied.generation == 1 ? EXIT_SUCCESS : EXIT_FAILURE;
}
