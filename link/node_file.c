/* The node of a node's file: `rmapctl node FILE --c` made the header. Packet lines come on standard input, and what comes of them
   is printed as `rmapctl live --node FILE` prints it, with the journal of each bank at the end. */
#include "node_file.h" /* the header that was made */

#include <inttypes.h>
#include <stdio.h>
#include <stdlib.h>
#include <string.h>

static uint8_t packet[SANDBAR_MAX_PACKET], reply[SANDBAR_MAX_REPLY];
static sandbar_node node;

static void want(uint32_t code, const char *what) {
  if (code == SANDBAR_OK) return;
  fprintf(stderr, "%s: code %" PRIu32 "\n", what, code);
  exit(EXIT_FAILURE);
}

static void print_hex(const uint8_t *bytes, size_t length) {
  for (size_t i = 0; i < length; i += 1) printf("%02X", bytes[i]);
}

static void open_node(void) {
  sandbar_why why;
  want(sandbar_open(&node, NODE_ADDRESS, NODE_PORTS, node_banks, NODE_BANKS, node_maps, NODE_MAPS, node_image,
                    sizeof node_image, &why), "open");
  for (uint8_t bank = 0; bank < NODE_BANKS; bank += 1)
    want(sandbar_poke(&node, bank, node_banks[bank].base, node_contents[bank].bytes, node_contents[bank].length,
                      node_banks[bank].room), "contents");
  for (size_t k = 0; k < NODE_PUBLISHES; k += 1)
    want(sandbar_publish(&node, node_publishes[k].slot, node_publishes[k].image, node_publishes[k].length, &why), "publish");
}

/* Reads the digits of a packet: how many bytes it has. */
static size_t read_hex(const char *digits) {
  size_t length = 0;
  unsigned byte;
  while (length < sizeof packet && sscanf(digits, "%2x", &byte) == 1) {
    packet[length++] = (uint8_t)byte;
    digits += 2;
  }
  return length;
}

/* Serves the packet of a line `PORT HEX EOP`, and prints what comes of it. */
static void serve_line(unsigned port, const char *digits, const char *end) {
  sandbar_served served;
  uint8_t marker = strcmp(end, "EOP") == 0 ? SANDBAR_EOP : SANDBAR_EEP;
  want(sandbar_serve(&node, (uint8_t)port, packet, read_hex(digits), marker, reply, sizeof reply, &served), "serve");
  if (served.kind == SANDBAR_DISCARDED) printf("%u discard %u\n", port, served.status);
  else if (served.reply_length == 0) printf("%u -\n", port);
  else {
    printf("%u ", port);
    print_hex(reply, served.reply_length);
    printf(" EOP\n");
  }
}

static void print_journal(uint8_t bank) {
  sandbar_journal journal;
  sandbar_entry entry;
  want(sandbar_journal_of(&node, bank, &journal), "journal");
  if (NODE_BANKS > 1) printf("bank %02X %08" PRIX32 "\n", bank, node_banks[bank].base);
  for (uint32_t place = 0; place < journal.entries; place += 1) {
    want(sandbar_entry_at(&node, bank, place, packet, sizeof packet, &entry), "entry");
    printf("journal %u %" PRIu64 " %" PRIu32 " %" PRIu64 " %u ", entry.port, entry.number, entry.generation, entry.verdict,
           entry.status);
    print_hex(packet, entry.packet_length);
    printf(" %s\n", entry.end == SANDBAR_EOP ? "EOP" : "EEP");
  }
  printf("journal %" PRIu64 " entries\n", journal.entries);
}

int main(void) {
  static char digits[2 * SANDBAR_MAX_PACKET + 1];
  char end[4];
  unsigned port;
  open_node();
  while (scanf("%u %8400s %3s", &port, digits, end) == 3) serve_line(port, digits, end);
  for (uint8_t bank = 0; bank < NODE_BANKS; bank += 1) print_journal(bank);
  return sandbar_close(&node) == SANDBAR_OK ? EXIT_SUCCESS : EXIT_FAILURE;
}
