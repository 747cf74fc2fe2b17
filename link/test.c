/* What the library does, call by call: test PACKETS REPLIES, the two files of crates/test_tables/data; or test order, the order
 * of the codes alone. */
#include "packets.h"

#include <ctype.h>
#include <inttypes.h>
#include <stdbool.h>
#include <stdio.h>
#include <stdlib.h>

_Static_assert(sizeof(sandbar_node) == 16 && offsetof(sandbar_node, live) == 8, "as the library has it");
_Static_assert(sizeof(sandbar_bank) == 12 && offsetof(sandbar_bank, size) == 4 && offsetof(sandbar_bank, room) == 8,
               "as the library has it");
_Static_assert(sizeof(sandbar_map) == 4 && offsetof(sandbar_map, peak) == 2, "as the library has it");
_Static_assert(sizeof(sandbar_why) == 4 && offsetof(sandbar_why, slot) == 2, "as the library has it");
_Static_assert(sizeof(sandbar_served) == 40 && offsetof(sandbar_served, generation) == 8 &&
                   offsetof(sandbar_served, reply_length) == 12 && offsetof(sandbar_served, address) == 16 &&
                   offsetof(sandbar_served, length) == 20 && offsetof(sandbar_served, room) == 24 &&
                   offsetof(sandbar_served, kind) == 28 && offsetof(sandbar_served, status) == 29 &&
                   offsetof(sandbar_served, command) == 30 && offsetof(sandbar_served, place) == 31 &&
                   offsetof(sandbar_served, extended) == 32 && offsetof(sandbar_served, found) == 33 &&
                   offsetof(sandbar_served, found_slot) == 34,
               "as the library has it");
_Static_assert(sizeof(sandbar_entry) == 32 && offsetof(sandbar_entry, verdict) == 8 &&
                   offsetof(sandbar_entry, generation) == 16 && offsetof(sandbar_entry, packet_length) == 20 &&
                   offsetof(sandbar_entry, port) == 24 && offsetof(sandbar_entry, status) == 25 &&
                   offsetof(sandbar_entry, end) == 26,
               "as the library has it");
_Static_assert(sizeof(sandbar_journal) == 16 && offsetof(sandbar_journal, loaded) == 8, "as the library has it");

static const uint8_t yes[] = IMAGE_OF(0), no[] = IMAGE_OF(10);
static const sandbar_bank bank = {0xA0000000u, 65536, 1024};
static const sandbar_map map = {1, 0};
static const sandbar_served untouched_served = {
    0x1122334455667788u, 0x99AABBCCu, 0xDDEEFF01u, 0x12345678u, 0x9ABCDEF0u, 0x13572468u, 0x23, 0x45, 0x67, 0x89, 0xAB, 0xCD, 0xEF,
    0x10, 0x23456789u};

static int checks, failures;
static unsigned codes_seen;

static void holds(int condition, const char *what) {
  checks += 1;
  if (!condition) {
    failures += 1;
    printf("FAILED: %s\n", what);
  }
}

static void answers(uint32_t code, uint32_t wanted, const char *what) {
  checks += 1;
  codes_seen |= 1u << code;
  if (code != wanted) {
    failures += 1;
    printf("FAILED: %s: code %" PRIu32 ", not %" PRIu32 "\n", what, code, wanted);
  }
}

static int same_served(const sandbar_served *a, const sandbar_served *b) {
  return a->verdict == b->verdict && a->generation == b->generation && a->reply_length == b->reply_length &&
         a->address == b->address && a->length == b->length && a->room == b->room && a->kind == b->kind &&
         a->status == b->status && a->command == b->command && a->place == b->place && a->extended == b->extended && a->found == b->found &&
         a->found_slot == b->found_slot && a->unused == b->unused && a->unused_word == b->unused_word;
}

/* What the command of a packet asked for, and the room that the journal of its bank has left. */
static int asks(const sandbar_served *served, uint8_t command, uint8_t place, uint8_t extended, uint32_t address,
                uint32_t length, uint32_t room) {
  return served->command == command && served->place == place && served->extended == extended &&
         served->address == address && served->length == length && served->room == room;
}

static sandbar_node opened(const sandbar_bank *banks, size_t count, const uint8_t *image, size_t length) {
  sandbar_node node = {0};
  sandbar_why why;
  answers(sandbar_open(&node, 0xFE, 2, banks, count, &map, 1, image, length, &why), SANDBAR_OK, "open");
  return node;
}

/* Serves a packet. The reply lies at the front of a room that is larger, and behind it the room is as before. */
static sandbar_served serve(sandbar_node *node, uint8_t port, const uint8_t *packet, size_t length, uint8_t *reply) {
  sandbar_served served = untouched_served;
  uint8_t room[SANDBAR_MAX_REPLY + 7];
  memset(room, 0xEE, sizeof room);
  answers(sandbar_serve(node, port, packet, length, SANDBAR_EOP, room, sizeof room, &served), SANDBAR_OK, "serve");
  int rest = 1;
  for (size_t i = served.reply_length; i < sizeof room; i += 1) rest &= room[i] == 0xEE;
  holds(rest, "behind the reply its room is as before");
  memcpy(reply, room, served.reply_length);
  return served;
}

static size_t bytes_of(const char *hex, uint8_t *bytes) {
  size_t length = 0;
  for (; isxdigit((unsigned char)hex[0]) && isxdigit((unsigned char)hex[1]); hex += 2) {
    const char two[3] = {hex[0], hex[1], 0};
    bytes[length++] = (uint8_t)strtoul(two, NULL, 16);
  }
  return length;
}

static int is_hex(const uint8_t *bytes, size_t length, const char *hex) {
  uint8_t wanted[SANDBAR_MAX_REPLY];
  return bytes_of(hex, wanted) == length && memcmp(bytes, wanted, length) == 0;
}

/* The first session of README, and its write and read. */
static void first_session(void) {
  uint8_t packet[64], reply[SANDBAR_MAX_REPLY];
  sandbar_node node = opened(&bank, 1, yes, sizeof yes);
  size_t length = put_read(packet, 1, 0, 0xA0000000u, 16);
  holds(is_hex(packet, length, "FE014C0067000100A0000000000010C9"), "a read, as README has it");
  sandbar_served served = serve(&node, 0, packet, length, reply);
  holds(is_hex(reply, served.reply_length, "67010C00FE0001000000106D0000000000000000000000000000000000"), "zeros");
  const char *write = "FE016C0067000000A00000000000109F0123456789ABCDEF101112131415161756";
  served = serve(&node, 0, packet, bytes_of(write, packet), reply);
  holds(is_hex(reply, served.reply_length, "67012C00FE0000ED"), "the reply to the write");
  holds(served.kind == SANDBAR_JUDGED && served.status == 0 && served.verdict == 0 && served.generation == 0, "judged");
  served = serve(&node, 0, packet, put_read(packet, 1, 0, 0xA0000000u, 16), reply);
  holds(is_hex(reply, served.reply_length, "67010C00FE0001000000106D0123456789ABCDEF101112131415161756"), "read back");
  served = serve(&node, 1, packet, 0, reply);
  holds(served.kind == SANDBAR_DISCARDED && served.status == 1 && served.reply_length == 0, "a packet of no bytes");
  answers(sandbar_close(&node), SANDBAR_OK, "close");

  uint8_t deny[sizeof no];
  memcpy(deny, no, sizeof no);
  deny[8] = 1;
  sandbar_why why;
  answers(sandbar_verify(&map, 1, deny, sizeof deny, &why), SANDBAR_REFUSED, "a budget of 1");
  holds(why.code == 15 && why.slot == 0, "refused V15 slot 0");
  node = opened(&bank, 1, no, sizeof no);
  served = serve(&node, 0, packet, put_read(packet, 1, 0, 0xA0000000u, 16), reply);
  holds(is_hex(reply, served.reply_length, "67010C0AFE000100000000A600"), "denied");
  answers(sandbar_close(&node), SANDBAR_OK, "close");
}

/* Each line of packets gives the line of replies: PORT HEX EOP, PORT -, or PORT discard N. */
static void table(const char *packets, const char *replies) {
  FILE *in = fopen(packets, "r"), *out = fopen(replies, "r");
  static char line[2 * SANDBAR_MAX_PACKET + 16], wanted[2 * SANDBAR_MAX_PACKET + 16];
  static uint8_t packet[SANDBAR_MAX_PACKET], reply[SANDBAR_MAX_REPLY];
  sandbar_node node = {0};
  sandbar_why why;
  answers(sandbar_open(&node, 0xFE, 2, &bank, 1, &map, 0, yes, sizeof yes, &why), SANDBAR_OK, "open without maps");
  int lines = 0, equal = 0;
  while (in && out && fgets(line, sizeof line, in) && fgets(wanted, sizeof wanted, out)) {
    char printed[2 * SANDBAR_MAX_REPLY + 16];
    uint8_t port = (uint8_t)(line[0] - '0'), end = strstr(line, " EEP") ? SANDBAR_EEP : SANDBAR_EOP;
    size_t length = bytes_of(line + 2, packet);
    sandbar_served served;
    if (sandbar_serve(&node, port, packet, length, end, reply, sizeof reply, &served) != SANDBAR_OK) break;
    int at = sprintf(printed, "%u ", port);
    if (served.kind == SANDBAR_DISCARDED) at += sprintf(printed + at, "discard %u\n", served.status);
    else if (served.reply_length == 0) at += sprintf(printed + at, "-\n");
    else {
      for (uint32_t i = 0; i < served.reply_length; i += 1) at += sprintf(printed + at, "%02X", reply[i]);
      at += sprintf(printed + at, " EOP\n");
    }
    lines += 1;
    equal += strcmp(printed, wanted) == 0;
  }
  holds(lines == 400 && equal == 400, "400 packets, 400 replies");
  printf("table: %d of %d lines\n", equal, lines);
  if (in) fclose(in);
  if (out) fclose(out);
  answers(sandbar_close(&node), SANDBAR_OK, "close");
}

/* A load through the boot window: stages an image at port 0, loads it into a slot, and gives the status. */
static uint8_t load(sandbar_node *node, const uint8_t *image, uint32_t length, uint8_t slot) {
  uint8_t packet[SANDBAR_MAX_PACKET], reply[SANDBAR_MAX_REPLY];
  const uint8_t control[4] = {slot, 0, (uint8_t)(length >> 8), (uint8_t)length};
  holds(serve(node, 0, packet, put_write(packet, 2, 0xFF, 0, image, length), reply).status == 0, "staged");
  return serve(node, 0, packet, put_write(packet, 3, 0xFF, 0x10000, control, 4), reply).status;
}

static void loads(void) {
  uint8_t packet[64], reply[SANDBAR_MAX_REPLY], bad[sizeof no];
  sandbar_node node = opened(&bank, 1, yes, sizeof yes), other = opened(&bank, 1, yes, sizeof yes);
  sandbar_journal journal;
  holds(load(&node, no, sizeof no, 0) == 0, "loaded");
  sandbar_served served = serve(&node, 0, packet, put_read(packet, 4, 0xFF, 0x10000, 8), reply);
  holds(served.reply_length == 21 && is_hex(reply + 12, 8, "0000000000000001"), "the load result");
  served = serve(&node, 1, packet, put_read(packet, 5, 0, 0xA0000000u, 4), reply);
  holds(served.status == 10 && served.generation == 1 && served.verdict == 10, "the new program says no to reads");
  const uint8_t data[2] = {7, 8};
  served = serve(&node, 1, packet, put_write(packet, 6, 0, 0xA0000000u, data, 2), reply);
  holds(served.status == 0 && served.generation == 0, "the first one judges writes");
  memcpy(bad, no, sizeof no);
  bad[16] = 0x55;
  holds(load(&node, bad, sizeof bad, 1) == 1, "a refused load");
  answers(sandbar_journal_of(&node, 0, &journal), SANDBAR_OK, "journal");
  holds(journal.entries == 2 && journal.loaded == 1, "two entries, one load");

  /* the other node knows nothing of it */
  served = serve(&other, 1, packet, put_read(packet, 7, 0, 0xA0000000u, 2), reply);
  holds(served.status == 0 && served.generation == 0 && reply[12] == 0 && reply[13] == 0, "two nodes side by side");
  answers(sandbar_journal_of(&other, 0, &journal), SANDBAR_OK, "journal");
  holds(journal.entries == 1 && journal.loaded == 0, "its own journal");
  answers(sandbar_close(&node), SANDBAR_OK, "close");
  served = serve(&other, 0, packet, put_read(packet, 8, 0, 0xA0000000u, 2), reply);
  holds(served.status == 0, "the other node goes on");
  answers(sandbar_close(&other), SANDBAR_OK, "close");
}

static void journals(void) {
  const sandbar_bank banks[2] = {{0xA0000000u, 65536, 4}, {0, 16, 2}};
  uint8_t packet[64], reply[SANDBAR_MAX_REPLY], copy[64], data[16];
  sandbar_node node = opened(banks, 2, yes, sizeof yes);
  sandbar_journal journal;
  sandbar_entry entry;
  memset(data, 0x5A, sizeof data);
  for (uint16_t i = 0; i < 6; i += 1) {
    size_t length = put_write(packet, i, 0, 0xA0000000u + i, data, 8);
    holds(serve(&node, i % 2, packet, length, reply).status == (i < 4 ? 0 : 1), "a full journal");
  }
  for (uint32_t place = 0; place < 4; place += 1) {
    size_t length = put_write(packet, (uint16_t)place, 0, 0xA0000000u + place, data, 8);
    memset(copy, 0xEE, sizeof copy);
    answers(sandbar_entry_at(&node, 0, place, copy, sizeof copy, &entry), SANDBAR_OK, "entry");
    holds(entry.packet_length == length && memcmp(copy, packet, length) == 0 && copy[length] == 0xEE, "its packet");
    holds(entry.port == place % 2 && entry.number == place / 2 && entry.generation == 0 && entry.verdict == 0 &&
              entry.status == 0 && entry.end == SANDBAR_EOP, "its numbers");
  }
  entry.number = 77;
  memset(copy, 0xEE, sizeof copy);
  answers(sandbar_entry_at(&node, 0, 4, copy, sizeof copy, &entry), SANDBAR_NO_ENTRY, "no entry");
  answers(sandbar_entry_at(&node, 0, 0, copy, 24, &entry), SANDBAR_NO_ROOM, "no room for its packet");
  answers(sandbar_entry_at(&node, 2, 0, copy, sizeof copy, &entry), SANDBAR_NO_BANK, "no bank");
  holds(entry.number == 77 && copy[0] == 0xEE && copy[23] == 0xEE, "nothing was written");
  answers(sandbar_rotate(&node, 0, 0), SANDBAR_BAD_CONFIG, "no room of 0");
  answers(sandbar_rotate(&node, 0, 65537), SANDBAR_BAD_CONFIG, "no room of 65,537");
  answers(sandbar_rotate(&node, 2, 4), SANDBAR_NO_BANK, "no bank");
  answers(sandbar_journal_of(&node, 0, &journal), SANDBAR_OK, "journal");
  holds(journal.entries == 4, "as before");
  answers(sandbar_rotate(&node, 0, 2), SANDBAR_OK, "rotate");
  answers(sandbar_journal_of(&node, 0, &journal), SANDBAR_OK, "journal");
  holds(journal.entries == 0, "a new journal");
  holds(serve(&node, 0, packet, put_read(packet, 9, 0, 0xA0000000u, 1), reply).status == 0, "served");
  answers(sandbar_entry_at(&node, 0, 0, copy, sizeof copy, &entry), SANDBAR_OK, "entry");
  holds(entry.number == 2, "numbers go on");
  answers(sandbar_journal_of(&node, 2, &journal), SANDBAR_NO_BANK, "no bank");
  answers(sandbar_close(&node), SANDBAR_OK, "close");
}

static void memory(void) {
  const sandbar_bank banks[2] = {{0xA0000000u, 65536, 4}, {0xFFFFFFF0u, 16, 2}};
  uint8_t packet[64], reply[SANDBAR_MAX_REPLY], seen[16];
  const uint8_t data[4] = {1, 2, 3, 4};
  sandbar_node node = opened(banks, 2, yes, sizeof yes);
  sandbar_journal journal;
  answers(sandbar_poke(&node, 1, 0xFFFFFFFCu, data, 4, 8), SANDBAR_OK, "poke at the last address");
  answers(sandbar_peek(&node, 1, 0xFFFFFFF8u, seen, 8), SANDBAR_OK, "peek to the last address");
  holds(is_hex(seen, 8, "0000000001020304"), "what was poked");
  holds(serve(&node, 0, packet, put_read(packet, 1, 1, 0xFFFFFFFCu, 4), reply).reply_length == 17, "read by a command");
  holds(is_hex(reply + 12, 4, "01020304"), "what a command reads");
  answers(sandbar_journal_of(&node, 1, &journal), SANDBAR_OK, "journal");
  holds(journal.entries == 1, "the journal of after the poke");
  memset(seen, 0xEE, sizeof seen);
  answers(sandbar_peek(&node, 1, 0xFFFFFFFCu, seen, 5), SANDBAR_NO_ROOM, "peek past the last address");
  answers(sandbar_peek(&node, 0, 0x9FFFFFFFu, seen, 2), SANDBAR_NO_ROOM, "peek before the bank");
  answers(sandbar_peek(&node, 2, 0, seen, 1), SANDBAR_NO_BANK, "no bank");
  holds(seen[0] == 0xEE && seen[4] == 0xEE, "nothing was written");
  answers(sandbar_poke(&node, 1, 0xFFFFFFFEu, data, 4, 8), SANDBAR_NO_ROOM, "poke past the last address");
  answers(sandbar_poke(&node, 0, 0xA0000000u, data, 4, 0), SANDBAR_BAD_CONFIG, "a journal without room");
  answers(sandbar_poke(&node, 9, 0, data, 4, 8), SANDBAR_NO_BANK, "no bank");
  answers(sandbar_peek(&node, 0, 0xA0000000u, seen, 1), SANDBAR_OK, "peek");
  holds(seen[0] == 0, "as before");
  answers(sandbar_close(&node), SANDBAR_OK, "close");
}

static void openings(void) {
  sandbar_why why = {9, 9};
  sandbar_node node = {0};
  const sandbar_map bad_maps[2] = {{1, 2}, {300, 0}};
  sandbar_bank nine[9];
  for (int i = 0; i < 9; i += 1) nine[i] = bank;
  answers(sandbar_verify(bad_maps, 1, yes, sizeof yes, &why), SANDBAR_BAD_MAPS, "a map of no kind");
  answers(sandbar_verify(bad_maps + 1, 1, yes, sizeof yes, &why), SANDBAR_BAD_MAPS, "300 cells");
  holds(why.code == 0 && why.slot == 0, "nothing to tell");
  answers(sandbar_verify(&map, 1, yes, 31, &why), SANDBAR_BAD_IMAGE, "a cut image");
  holds(why.code == 3 && why.slot == 0, "the image has another length");
  answers(sandbar_verify(&map, 1, yes, sizeof yes, &why), SANDBAR_OK, "accepted");
  holds(why.code == 0 && why.slot == 0, "nothing to tell");
  uint8_t odd[sizeof yes];
  memcpy(odd, yes, sizeof yes);
  odd[24] = 0xFF;
  answers(sandbar_open(&node, 1, 1, &bank, 1, &map, 1, odd, sizeof odd, &why), SANDBAR_BAD_IMAGE, "no instruction");
  holds(why.code == 7 && why.slot == 1, "at slot 1");
  answers(sandbar_open(&node, 1, 0, &bank, 1, &map, 1, yes, sizeof yes, &why), SANDBAR_BAD_CONFIG, "no ports");
  answers(sandbar_open(&node, 1, 33, &bank, 1, &map, 1, yes, sizeof yes, &why), SANDBAR_BAD_CONFIG, "33 ports");
  answers(sandbar_open(&node, 1, 1, nine, 0, &map, 1, yes, sizeof yes, &why), SANDBAR_BAD_CONFIG, "no banks");
  answers(sandbar_open(&node, 1, 1, nine, 9, &map, 1, yes, sizeof yes, &why), SANDBAR_BAD_CONFIG, "9 banks");
  nine[7].size = 0;
  answers(sandbar_open(&node, 1, 1, nine, 8, &map, 1, yes, sizeof yes, &why), SANDBAR_BAD_CONFIG, "a bank of no bytes");
  holds(node.inside == 0 && node.live == 0, "the node is not open");
  nine[7].size = 1;
  answers(sandbar_open(&node, 1, 32, nine, 8, &map, 1, yes, sizeof yes, &why), SANDBAR_OK, "8 banks, 32 ports");
  uint64_t inside = node.inside;
  why.code = 9;
  answers(sandbar_open(&node, 1, 0, nine, 0, bad_maps, 2, yes, 1, &why), SANDBAR_IS_OPEN, "open again");
  holds(node.inside == inside && why.code == 9, "as before");
  answers(sandbar_close(&node), SANDBAR_OK, "close");
}

/* What is told of a command: what it asked for, where it ended, and the room that is left there. */
static void told(void) {
  const sandbar_bank banks[2] = {{0xA0000000u, 65536, 4}, {0x8000u, 16, 2}};
  uint8_t packet[SANDBAR_MAX_PACKET], reply[SANDBAR_MAX_REPLY];
  const uint8_t data[4] = {1, 2, 3, 4};
  sandbar_node node = opened(banks, 2, yes, sizeof yes);
  for (uint32_t k = 0; k < 3; k += 1) {
    sandbar_served served = serve(&node, 0, packet, put_write(packet, 1, 1, 0x8004, data, 4), reply);
    holds(served.status == (k < 2 ? 0 : 1), "a journal for two");
    holds(asks(&served, SANDBAR_WRITE, SANDBAR_AT_BANK, 1, 0x8004, 4, k < 2 ? 1 - k : 0), "a write at bank 1");
  }
  sandbar_served served = serve(&node, 1, packet, put_read(packet, 2, 0, 0xA0000010u, 300), reply);
  holds(asks(&served, SANDBAR_READ, SANDBAR_AT_BANK, 0, 0xA0000010u, 300, 3), "a read at bank 0");
  served = serve(&node, 1, packet, put_read(packet, 3, 9, 0xA0000010u, 1), reply);
  holds(served.kind == SANDBAR_ANSWERED && asks(&served, SANDBAR_READ, SANDBAR_NOWHERE, 9, 0xA0000010u, 1, 0), "no bank 9");
  served = serve(&node, 1, packet, put_write(packet, 4, 0xFF, 0, yes, sizeof yes), reply);
  holds(asks(&served, SANDBAR_WRITE, SANDBAR_AT_WINDOW, 0xFF, 0, sizeof yes, 0), "staged");
  /* a read-modify-write: two bytes of data, two of mask */
  size_t length = put_header(packet, 0x5C, 5, 0, 0xA0000000u, 4);
  memcpy(packet + length, data, 4);
  packet[length + 4] = sandbar_crc(data, 4);
  served = serve(&node, 0, packet, length + 5, reply);
  holds(served.status == 0 && asks(&served, SANDBAR_RMW, SANDBAR_AT_BANK, 0, 0xA0000000u, 4, 2), "a read-modify-write");
  length = put_header(packet, 0x40, 6, 0, 0xA0000000u, 4);
  served = serve(&node, 0, packet, length, reply);
  holds(served.status == 2 && asks(&served, SANDBAR_NO_COMMAND, SANDBAR_NOWHERE, 0, 0xA0000000u, 4, 0), "an unused code");
  packet[15] ^= 1;
  served = serve(&node, 0, packet, length, reply);
  holds(served.kind == SANDBAR_DISCARDED && asks(&served, 0, 0, 0, 0, 0, 0), "no command");
  served = serve(&node, 0, packet, 15, reply);
  holds(served.kind == SANDBAR_DISCARDED && asks(&served, 0, 0, 0, 0, 0, 0), "a header that is cut");
  /* a read with a reply address of four bytes */
  const uint8_t routed[19] = {0xFE, 1, 0x4D, 0, 0, 0, 0, 5, 0x67, 0, 8, 0, 0xA0, 0, 0, 0x10, 0, 0, 1};
  memcpy(packet, routed, sizeof routed);
  packet[sizeof routed] = sandbar_crc(routed, sizeof routed);
  served = serve(&node, 0, packet, sizeof routed + 1, reply);
  holds(served.status == 0 && asks(&served, SANDBAR_READ, SANDBAR_AT_BANK, 0, 0xA0000010u, 1, 1), "fields behind a reply address");
  answers(sandbar_rotate(&node, 1, 9), SANDBAR_OK, "rotate");
  served = serve(&node, 0, packet, put_read(packet, 7, 1, 0x8000u, 1), reply);
  holds(served.room == 8, "the new journal's room");
  answers(sandbar_close(&node), SANDBAR_OK, "close");
}

/* The CRC of each byte behind each other one: the step of the CRC, which is all of it, bit by bit. */
static void crcs(void) {
  int equal = 1;
  for (unsigned first = 0; first < 256; first += 1) {
    uint8_t bytes[2] = {(uint8_t)first, 0}, wanted = 0;
    for (int byte = 0; byte < 2; byte += 1) {
      bytes[1] = (uint8_t)(first * 7 + 3);
      wanted ^= bytes[byte];
      for (int bit = 0; bit < 8; bit += 1) wanted = (uint8_t)((wanted >> 1) ^ (wanted & 1 ? 0xE0 : 0));
      equal &= sandbar_crc(bytes, (size_t)byte + 1) == wanted;
    }
  }
  holds(equal, "the CRC, bit by bit");
}

/* What programs left in the cells of maps. */
static void words_of_cells(void) {
  /* draws a ticket of cell 1 of map 0, shows 77 to map 1, and says yes */
  static const uint8_t draws[] = {
      0x42, 0x50, 0x46, 0x41, 2, 0, 0x0B, 0, 0x0B, 0, 0, 0, 0, 0, 0, 0, 0xB7, 2, 0, 0, 1, 0, 0, 0, 0x18, 0x51, 0, 0,
      0, 0, 0, 0, 0, 0, 0, 0, 0, 0, 0, 0, 0x85, 0, 0, 0, 2, 0, 0, 0, 0x18, 0x51, 0, 0, 1, 0, 0, 0, 0, 0, 0, 0, 0, 0,
      0, 0, 0xB7, 2, 0, 0, 0, 0, 0, 0, 0xB7, 3, 0, 0, 0x4D, 0, 0, 0, 0x85, 0, 0, 0, 3, 0, 0, 0, 0xB7, 0, 0, 0, 0, 0,
      0, 0, 0x95, 0, 0, 0, 0, 0, 0, 0};
  const sandbar_map maps[2] = {{2, 0}, {1, 1}};
  uint8_t packet[64], reply[SANDBAR_MAX_REPLY];
  uint64_t word = 7;
  sandbar_node node = {0};
  sandbar_why why;
  answers(sandbar_open(&node, 0xFE, 2, &bank, 1, maps, 2, draws, sizeof draws, &why), SANDBAR_OK, "open");
  answers(sandbar_word(&node, 0, 1, &word), SANDBAR_OK, "word");
  holds(word == 0, "of a fresh node");
  for (uint8_t k = 0; k < 3; k += 1)
    holds(serve(&node, k % 2, packet, put_read(packet, k, 0, 0xA0000000u, 1), reply).status == 0, "served");
  answers(sandbar_word(&node, 0, 1, &word), SANDBAR_OK, "word");
  holds(word == 3, "three tickets");
  answers(sandbar_word(&node, 1, 0, &word), SANDBAR_OK, "word");
  holds(word == 77, "the greatest");
  answers(sandbar_word(&node, 0, 2, &word), SANDBAR_NO_CELL, "no cell");
  answers(sandbar_word(&node, 2, 0, &word), SANDBAR_NO_CELL, "no map");
  holds(word == 77, "as before");
  answers(sandbar_word(&node, 0, 0, &word), SANDBAR_OK, "word");
  holds(word == 0, "a cell that nothing was drawn from");
  answers(sandbar_close(&node), SANDBAR_OK, "close");
}

static const sandbar_scrubbed touched_scrubbed = {7, 7, 7, 7, 7, 7, 7, 7};

static bool are_zeros(const sandbar_scrubbed *told) {
  return told->first == 0 && told->mended == 0 && told->withdrawn == 0 && told->restored == 0 && told->sizes == 0 &&
         told->journals == 0;
}

/* Scrubs of a node that is whole: nothing changes. What comes of others, upsets.c shows. */
static void scrubs(void) {
  uint8_t packet[64], reply[SANDBAR_MAX_REPLY];
  sandbar_scrubbed told;
  sandbar_journal journal;
  sandbar_node node = opened(&bank, 1, yes, sizeof yes);
  for (uint8_t part = SANDBAR_PROGRAMS; part <= SANDBAR_ALL; part += 1) {
    told = touched_scrubbed;
    answers(sandbar_scrub(&node, part, yes, sizeof yes, &told), SANDBAR_OK, "scrub");
    holds(are_zeros(&told), "each is whole");
  }
  for (uint32_t each = 0; each < 4; each += 1) {
    answers(sandbar_scrub_each(&node, each), SANDBAR_OK, "scrub each");
    for (uint8_t k = 0; k < 5; k += 1) {
      sandbar_served served = serve(&node, 0, packet, put_read(packet, k, 0, 0xA0000000u, 1), reply);
      int due = each != 0 && (k + 1u) % each == 0;
      holds(served.status == 0, "served");
      holds(served.found == (due ? SANDBAR_WHOLE : SANDBAR_UNSCRUBBED), "what the scrub found");
      holds(served.found_slot == (due ? 0 : SANDBAR_NO_SLOT), "at which slot");
    }
  }
  answers(sandbar_scrub_each(&node, 1), SANDBAR_OK, "scrub each");
  sandbar_served window = serve(&node, 0, packet, put_read(packet, 5, 0xFF, 0x10000, 8), reply);
  holds(window.found == SANDBAR_WHOLE && window.found_slot == 3, "a scrub of the slot of the window");
  answers(sandbar_scrub_each(&node, 2), SANDBAR_OK, "scrub each");
  for (uint8_t k = 0; k < 4; k += 1) { /* each second packet is no command: the scrub waits for one that is */
    sandbar_served served = k % 2 == 1 ? serve(&node, 0, packet, 1, reply)
                                       : serve(&node, 0, packet, put_read(packet, 6, 0xFF, 0x10000, 8), reply);
    holds(served.found == (k == 2 ? SANDBAR_WHOLE : SANDBAR_UNSCRUBBED), "a scrub that is due stays due");
  }
  answers(sandbar_journal_of(&node, 0, &journal), SANDBAR_OK, "journal");
  holds(journal.loaded == 0 && journal.entries == 20, "no program is published");
  answers(sandbar_scrub(&node, SANDBAR_ALL, yes, sizeof yes, &told), SANDBAR_OK, "scrub");
  holds(are_zeros(&told), "each entry is whole");
  answers(sandbar_close(&node), SANDBAR_OK, "close");
}

/* A struct that a call writes has no byte of before. */
static void fields(void) {
  static uint8_t packet[SANDBAR_MAX_PACKET], reply[SANDBAR_MAX_REPLY];
  sandbar_node node = opened(&bank, 1, yes, sizeof yes);
  sandbar_served served;
  sandbar_journal journal;
  sandbar_entry entry;
  sandbar_scrubbed scrubbed;
  memset(&served, 0xEE, sizeof served);
  memset(&journal, 0xEE, sizeof journal);
  memset(&entry, 0xEE, sizeof entry);
  memset(&scrubbed, 0xEE, sizeof scrubbed);
  size_t length = put_read(packet, 1, 0, 0xA0000000u, 4);
  answers(sandbar_serve(&node, 0, packet, length, SANDBAR_EOP, reply, sizeof reply, &served), SANDBAR_OK, "serve");
  holds(served.unused == 0 && served.unused_word == 0, "of what was served");
  answers(sandbar_journal_of(&node, 0, &journal), SANDBAR_OK, "journal");
  holds(journal.unused == 0, "of a journal");
  answers(sandbar_entry_at(&node, 0, 0, packet, sizeof packet, &entry), SANDBAR_OK, "entry");
  holds(entry.unused == 0 && entry.unused_word == 0, "of an entry");
  answers(sandbar_scrub(&node, SANDBAR_ALL, yes, 0, &scrubbed), SANDBAR_OK, "scrub");
  holds(scrubbed.unused == 0 && scrubbed.unused_half == 0, "of a scrub");
  answers(sandbar_close(&node), SANDBAR_OK, "close");
}

/* Programs that are published without a packet: what judges in a slot is the last, and each has the next generation. */
static void publishes(void) {
  uint8_t packet[64], reply[SANDBAR_MAX_REPLY], odd[sizeof yes];
  sandbar_why why = {9, 9};
  sandbar_journal journal;
  sandbar_node node = {0};
  answers(sandbar_publish(&node, 4, yes, 31, &why), SANDBAR_NO_NODE, "publish");
  holds(why.code == 9 && why.slot == 9, "nothing is written");
  node = opened(&bank, 1, yes, sizeof yes);
  answers(sandbar_publish(&node, 4, yes, 31, &why), SANDBAR_BAD_SLOT, "slot 4");
  holds(why.code == 0 && why.slot == 0, "nothing to tell");
  answers(sandbar_publish(&node, 3, yes, 31, &why), SANDBAR_BAD_IMAGE, "a cut image");
  holds(why.code == 3 && why.slot == 0, "the image has another length");
  memcpy(odd, yes, sizeof yes);
  odd[8] = 1;
  answers(sandbar_publish(&node, 3, odd, sizeof odd, &why), SANDBAR_REFUSED, "a budget of 1");
  holds(why.code == 15 && why.slot == 0, "refused V15 slot 0");
  answers(sandbar_journal_of(&node, 0, &journal), SANDBAR_OK, "journal");
  holds(journal.loaded == 0, "nothing was published");
  answers(sandbar_publish(&node, 0, no, sizeof no, &why), SANDBAR_OK, "publish");
  holds(serve(&node, 0, packet, put_read(packet, 0, 0, 0xA0000000u, 1), reply).status == 10, "denied");
  answers(sandbar_publish(&node, 3, no, sizeof no, &why), SANDBAR_OK, "publish");
  answers(sandbar_publish(&node, 0, yes, sizeof yes, &why), SANDBAR_OK, "publish behind a guard that denies");
  holds(why.code == 0 && why.slot == 0, "nothing to tell");
  sandbar_served served = serve(&node, 0, packet, put_read(packet, 1, 0, 0xA0000000u, 1), reply);
  holds(served.status == 0 && served.generation == 3, "the last that was published for the slot judges");
  answers(sandbar_journal_of(&node, 0, &journal), SANDBAR_OK, "journal");
  holds(journal.loaded == 3, "three programs were published");
  sandbar_scrubbed told = touched_scrubbed;
  answers(sandbar_scrub(&node, SANDBAR_PROGRAMS, yes, 0, &told), SANDBAR_OK, "scrub");
  holds(are_zeros(&told), "their sums are kept");
  answers(sandbar_close(&node), SANDBAR_OK, "close");
}

/* What is not open, and what is not served. */
static void refusals(void) {
  uint8_t packet[SANDBAR_MAX_PACKET + 1] = {0}, room[SANDBAR_MAX_REPLY];
  sandbar_node node = {0};
  sandbar_served served = untouched_served;
  sandbar_journal journal;
  sandbar_entry entry;
  sandbar_scrubbed scrubbed = touched_scrubbed;
  uint64_t word = 7;
  memset(room, 0xEE, sizeof room);
  for (int round = 0; round < 2; round += 1) {
    answers(sandbar_serve(&node, 9, packet, 1, 9, room, 1, &served), SANDBAR_NO_NODE, "serve");
    answers(sandbar_journal_of(&node, 0, &journal), SANDBAR_NO_NODE, "journal");
    answers(sandbar_entry_at(&node, 0, 0, room, sizeof room, &entry), SANDBAR_NO_NODE, "entry");
    answers(sandbar_rotate(&node, 0, 4), SANDBAR_NO_NODE, "rotate");
    answers(sandbar_peek(&node, 0, 0, room, 1), SANDBAR_NO_NODE, "peek");
    answers(sandbar_poke(&node, 0, 0, packet, 1, 4), SANDBAR_NO_NODE, "poke");
    answers(sandbar_word(&node, 0, 0, &word), SANDBAR_NO_NODE, "word");
    answers(sandbar_scrub(&node, SANDBAR_ALL, packet, 0, &scrubbed), SANDBAR_NO_NODE, "scrub");
    answers(sandbar_scrub_each(&node, 1), SANDBAR_NO_NODE, "scrub each");
    answers(sandbar_close(&node), SANDBAR_NO_NODE, "close");
    if (round == 1) break;
    node = opened(&bank, 1, yes, sizeof yes);
    answers(sandbar_serve(&node, 2, packet, 4201, 2, room, 1, &served), SANDBAR_NO_PORT, "no port");
    answers(sandbar_serve(&node, 1, packet, 4201, 2, room, 1, &served), SANDBAR_BAD_END, "no end");
    answers(sandbar_serve(&node, 1, packet, 4201, 1, room, 1, &served), SANDBAR_TOO_LONG, "4,201 bytes");
    answers(sandbar_serve(&node, 1, packet, 4200, 1, room, 4120, &served), SANDBAR_NO_ROOM, "4,120 bytes of room");
    answers(sandbar_scrub(&node, SANDBAR_ALL + 1, packet, 0, &scrubbed), SANDBAR_NO_PART, "no part");
    answers(sandbar_close(&node), SANDBAR_OK, "close");
  }
  holds(scrubbed.first == 7 && scrubbed.mended == 7 && scrubbed.journals == 7, "nothing that was found was written");
  holds(same_served(&served, &untouched_served) && word == 7, "no numbers were written");
  holds(room[0] == 0xEE && room[4119] == 0xEE, "no reply was written");
}

/* ---- The first code: calls with one fault at least, by chance, and more lent than any node takes. No call is without fault, so
 * memory is asked for by none that passes its tests. */

static uint8_t lent[1000000];

static uint32_t below(uint32_t limit) {
  static uint32_t state = 1;
  state = state * 1664525u + 1013904223u;
  return (state >> 8) % limit;
}

/* So many bytes of the bank, or bytes that lie outside it in part. */
static size_t bytes_at(int outside, uint32_t *address) {
  static const size_t lengths[4] = {0, 1, 60000, 65536};
  size_t length = lengths[below(4)];
  *address = 0xA0000000u + 65536u - (uint32_t)length;
  if (!outside) return length;
  if (below(2)) return sizeof lent;
  *address += 1;
  return length;
}

static int peek_or_poke(sandbar_node *node) {
  int pokes = below(2) == 1, no_bank = below(2) == 1, no_room = pokes && below(2) == 1;
  int outside = below(2) == 1 || !(no_bank || no_room);
  uint32_t address, wanted = no_bank ? SANDBAR_NO_BANK : outside ? SANDBAR_NO_ROOM : SANDBAR_BAD_CONFIG;
  size_t length = bytes_at(outside, &address);
  uint8_t number = no_bank ? 9 : 0;
  if (!pokes) return sandbar_peek(node, number, address, lent, length) == wanted;
  return sandbar_poke(node, number, address, lent, length, no_room ? below(2) * 65537u : 16) == wanted;
}

/* Verifies an image, or opens a node with it. */
static int verify_or_open(void) {
  const sandbar_map bad = {0, 0};
  int opens = below(2) == 1, bad_maps = below(2) == 1, bad_image = below(2) == 1, bad_config = opens && below(2) == 1;
  int refused = below(2) == 1 || !(bad_maps || bad_image || bad_config);
  uint32_t wanted = bad_maps ? SANDBAR_BAD_MAPS : bad_image ? SANDBAR_BAD_IMAGE : refused ? SANDBAR_REFUSED : SANDBAR_BAD_CONFIG;
  uint16_t told = bad_maps ? 0 : bad_image ? 3 : refused ? 15 : 0;
  sandbar_node node = {0};
  sandbar_why why = {9, 9};
  memcpy(lent, yes, sizeof yes);
  if (refused) lent[8] = 1;
  const sandbar_map *maps = bad_maps ? &bad : &map;
  size_t length = bad_image ? sizeof lent : sizeof yes;
  uint32_t code = opens ? sandbar_open(&node, 0xFE, bad_config ? 33 : 1, &bank, 1, maps, 1, lent, length, &why)
                        : sandbar_verify(maps, 1, lent, length, &why);
  return code == wanted && why.code == told && why.slot == 0 && node.live == 0;
}

static int serve_it(sandbar_node *node) {
  int no_port = below(2) == 1, bad_end = below(2) == 1, no_room = below(2) == 1;
  int too_long = below(2) == 1 || !(no_port || bad_end || no_room);
  uint32_t wanted = no_port ? SANDBAR_NO_PORT : bad_end ? SANDBAR_BAD_END : too_long ? SANDBAR_TOO_LONG : SANDBAR_NO_ROOM;
  uint8_t reply[SANDBAR_MAX_REPLY];
  sandbar_served served;
  return sandbar_serve(node, no_port ? 1 : 0, lent, too_long ? sizeof lent : 16, bad_end ? 2 : SANDBAR_EOP, reply,
                       no_room ? SANDBAR_MAX_REPLY - 1 : sizeof reply, &served) == wanted;
}

static int look(sandbar_node *node) {
  sandbar_entry entry;
  sandbar_journal journal;
  uint64_t word;
  int no_bank = below(2) == 1;
  switch (below(4)) {
  case 0: return sandbar_entry_at(node, no_bank ? 1 : 0, 0, lent, 0, &entry) == (no_bank ? SANDBAR_NO_BANK : SANDBAR_NO_ENTRY);
  case 1: return sandbar_rotate(node, no_bank ? 1 : 0, 65537) == (no_bank ? SANDBAR_NO_BANK : SANDBAR_BAD_CONFIG);
  case 2: return sandbar_journal_of(node, 1, &journal) == SANDBAR_NO_BANK;
  default: return sandbar_word(node, no_bank ? 1 : 0, no_bank ? 0 : 1, &word) == SANDBAR_NO_CELL;
  }
}

static void order(void) {
  const sandbar_bank small = {0xA0000000u, 65536, 16};
  sandbar_node node = {0};
  sandbar_why why;
  int first = 0;
  answers(sandbar_open(&node, 0xFE, 1, &small, 1, &map, 1, yes, sizeof yes, &why), SANDBAR_OK, "open");
  for (int call = 0; call < 2000; call += 1) switch (below(4)) {
    case 0: first += peek_or_poke(&node); break;
    case 1: first += verify_or_open(); break;
    case 2: first += serve_it(&node); break;
    default: first += look(&node);
    }
  holds(first == 2000, "2,000 calls with faults, each with the code of its first");
  answers(sandbar_close(&node), SANDBAR_OK, "close");
}

int main(int count, char **words) {
  if (count == 2 && strcmp(words[1], "order") == 0) {
    order();
    printf("order: %d checks, %d failed\n", checks, failures);
    return failures == 0 ? EXIT_SUCCESS : EXIT_FAILURE;
  }
  if (count != 3) return EXIT_FAILURE;
  holds(sandbar_crc((const uint8_t *)"123456789", 9) == 0x20, "the CRC of 123456789");
  holds(sandbar_version() == SANDBAR_VERSION, "the library of this header");
  crcs();
  first_session();
  told();
  table(words[1], words[2]);
  loads();
  journals();
  memory();
  openings();
  words_of_cells();
  scrubs();
  fields();
  publishes();
  refusals();
  order();
  /* NO_MEMORY is left to memory.c, and DAMAGED to upsets.c */
  holds(codes_seen == 0x37FFD, "every code but three");
  printf("%d checks, %d failed\n", checks, failures);
  return failures == 0 ? EXIT_SUCCESS : EXIT_FAILURE;
}
