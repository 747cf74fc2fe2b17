/* One number for all that the library does on the same hostile inputs: fuzz ROUNDS SEED PACKETS IMAGES.., files of
 * crates/test_tables/data: packets, and lines that begin with an image. Equal numbers on two processors: the same verdicts,
 * replies, journals, banks and cells. */
#include "packets.h"

#include <ctype.h>
#include <stdio.h>
#include <stdlib.h>

static uint64_t state, sum = 1469598103934665603u;

static uint32_t any(uint32_t below) {
  state = state * 6364136223846793005u + 1442695040888963407u;
  return (uint32_t)((state >> 33) % below);
}

static void eat(const void *bytes, size_t length) {
  for (size_t k = 0; k < length; k += 1) sum = (sum ^ ((const uint8_t *)bytes)[k]) * 1099511628211u;
}

static void number(uint64_t n) {
  for (int k = 0; k < 8; k += 1, n >>= 8) sum = (sum ^ (n & 255)) * 1099511628211u;
}

enum { IMAGES = 500 };
static uint8_t packets[400][SANDBAR_MAX_PACKET], image[IMAGES][4200], reply[SANDBAR_MAX_REPLY + 9];
static size_t packet_lengths[400], image_lengths[IMAGES];
static size_t packet_count, image_count;
static const sandbar_bank banks[3] = {{0xA0000000u, 65536, 64}, {0, 4096, 7}, {0x8000u, 1000, 3}};
static const sandbar_map maps[3] = {{4, 0}, {8, 1}, {2, 0}};
static unsigned long accepted, refused, replies, done, opened_nodes, loads;

static void serve(sandbar_node *node, const uint8_t *packet, size_t length, uint8_t end) {
  sandbar_served served = {0};
  memset(reply, 0xEE, sizeof reply);
  uint8_t port = (uint8_t)any(4);
  size_t room = sizeof reply - any(2) * 10;
  uint32_t code = sandbar_serve(node, port, packet, length, end, reply, room, &served);
  number(code);
  eat(reply, sizeof reply);
  number(served.verdict), number(served.generation), number(served.reply_length), number(served.kind), number(served.status);
  number(served.command), number(served.place), number(served.extended);
  number(served.address), number(served.length), number(served.room);
  replies += served.reply_length != 0;
  done += served.kind == SANDBAR_JUDGED && served.status == 0;
}

static void one(uint32_t which) {
  static uint8_t bytes[4200], packet[SANDBAR_MAX_PACKET + 2], copy[65536];
  sandbar_why why = {77, 77};
  sandbar_node node = {0};
  size_t length = image_lengths[which];
  memcpy(bytes, image[which], length);
  for (uint32_t k = any(3); k > 1; k -= 1) {
    uint32_t at = any((uint32_t)length);
    bytes[at] ^= (uint8_t)(1u << any(8));
  }
  uint32_t some = any(4), less = any(9) == 0;
  number(sandbar_verify(maps, some, bytes, length - less, &why));
  number(why.code), number(why.slot);
  uint32_t code = sandbar_open(&node, 0xFE, 3, banks, 1 + any(3), maps, 3, bytes, length, &why);
  number(code), number(why.code), number(why.slot);
  code == SANDBAR_OK ? (accepted += 1) : (refused += 1);
  if (code != SANDBAR_OK) {
    const uint8_t yes[] = IMAGE_OF(0);
    number(sandbar_open(&node, 0xFE, 3, banks, 3, maps, 3, yes, sizeof yes, &why));
  }
  opened_nodes += 1;
  for (int k = 0; k < 24; k += 1) {
    uint32_t from = any((uint32_t)packet_count);
    size_t n = packet_lengths[from];
    memcpy(packet, packets[from], n);
    uint32_t kind = any(8);
    if (kind == 0 && n > 0) {
      uint32_t at = any((uint32_t)n);
      packet[at] ^= (uint8_t)(1u << any(8));
    }
    if (kind == 1 && n > 0) n -= any((uint32_t)n);
    if (kind == 2 && n > 15) {
      uint32_t at = 7 + any(8);
      packet[at] = (uint8_t)any(256);
      packet[15] = sandbar_crc(packet, 15);
    }
    if (kind == 3) { /* a load through the boot window */
      uint32_t other = any((uint32_t)image_count), size = (uint32_t)image_lengths[other];
      const uint8_t control[4] = {(uint8_t)any(5), 0, (uint8_t)(size >> 8), (uint8_t)size};
      serve(&node, packet, put_write(packet, 2, 0xFF, 0, image[other], size), SANDBAR_EOP);
      serve(&node, packet, put_write(packet, 3, 0xFF, 0x10000, control, 4), SANDBAR_EOP);
      n = put_read(packet, 4, 0xFF, 0x10000, 8);
      loads += 1;
    }
    if (kind == 4) {
      uint8_t bank = (uint8_t)any(3);
      uint32_t at = banks[any(3)].base, by = any(5000), size = any(200);
      n = put_read(packet, (uint16_t)k, bank, at + by, size);
    }
    serve(&node, packet, n, any(20) == 0);
  }
  for (uint8_t bank = 0; bank < 4; bank += 1) {
    sandbar_journal journal = {0};
    number(sandbar_journal_of(&node, bank, &journal)), number(journal.entries), number(journal.loaded);
    for (uint32_t k = 0; k <= journal.entries; k += 1) {
      sandbar_entry entry = {0};
      memset(packet, 0, sizeof packet);
      number(sandbar_entry_at(&node, bank, k, packet, sizeof packet, &entry));
      eat(packet, sizeof packet);
      number(entry.number), number(entry.verdict), number(entry.generation), number(entry.packet_length);
      number(entry.port), number(entry.status), number(entry.end);
    }
    uint32_t size = bank < 3 ? banks[bank].size : 5, base = bank < 3 ? banks[bank].base : 0;
    memset(copy, 0, sizeof copy);
    number(sandbar_peek(&node, bank, base, copy, size));
    eat(copy, sizeof copy);
    if (any(3) == 0) {
      uint32_t by = any(70), some = any(2000), room = any(40);
      number(sandbar_poke(&node, bank, base + by, copy, some, room));
    }
    if (any(3) == 0) number(sandbar_rotate(&node, bank, any(40)));
  }
  for (uint8_t map = 0; map < 4; map += 1)
    for (uint16_t cell = 0; cell < 9; cell += 1) {
      uint64_t word = 77;
      number(sandbar_word(&node, map, cell, &word)), number(word);
    }
  number(sandbar_close(&node));
  number(sandbar_close(&node));
}

static char line[2 * SANDBAR_MAX_PACKET + 16];

static size_t bytes_of(const char *hex, uint8_t *bytes, size_t most) {
  size_t length = 0;
  for (; length < most && isxdigit((unsigned char)hex[0]) && isxdigit((unsigned char)hex[1]); hex += 2) {
    const char two[3] = {hex[0], hex[1], 0};
    bytes[length++] = (uint8_t)strtoul(two, NULL, 16);
  }
  return length;
}

static int read_packets(const char *path) {
  FILE *in = fopen(path, "r");
  if (in == NULL) return 0;
  for (; packet_count < 400 && fgets(line, sizeof line, in); packet_count += 1)
    packet_lengths[packet_count] = bytes_of(line + 2, packets[packet_count], SANDBAR_MAX_PACKET);
  fclose(in);
  return 1;
}

static int read_images(const char *path) {
  FILE *in = fopen(path, "r");
  if (in == NULL) return 0;
  while (image_count < IMAGES && fgets(line, sizeof line, in)) {
    if (memcmp(line, "42504641", 8) != 0) continue;
    image_lengths[image_count] = bytes_of(line, image[image_count], sizeof image[0]);
    image_count += 1;
  }
  fclose(in);
  return 1;
}

int main(int count, char **words) {
  if (count < 5 || !read_packets(words[3])) return EXIT_FAILURE;
  for (int k = 4; k < count; k += 1)
    if (!read_images(words[k])) return EXIT_FAILURE;
  if (image_count == 0 || packet_count == 0) return EXIT_FAILURE;
  state = strtoul(words[2], NULL, 10);
  for (unsigned long rounds = strtoul(words[1], NULL, 10); rounds > 0; rounds -= 1) one(any((uint32_t)image_count));
  printf("%08lx%08lx: %lu nodes, %lu images accepted, %lu refused, %lu loads, %lu replies, %lu done\n",
         (unsigned long)(sum >> 32), (unsigned long)(sum & 0xFFFFFFFF), opened_nodes, accepted, refused, loads, replies, done);
  return EXIT_SUCCESS;
}
