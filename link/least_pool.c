/* The least pool (link/pool.c) over which the node of a header that `rmapctl node --c` made, node_file.h, is opened and serves without
 * want of memory: its banks begin with their bytes and its images are published, each journal is filled with the longest packets that
 * there are, one packet more is served, and each image is loaded again while the journals are full. Then all journals are turned, and
 * this is done twice more. It prints NODE_POOL_BYTES, the least number, and by how much the first is above it. The status is 1 if
 * NODE_POOL_BYTES is less, or more than 5 % above (link/least). */
#ifndef POOL
#define POOL (64u << 20)
#endif
#include "node_file.h"
#include "packets.h"
#include "pool.c"

#include <stdio.h>
#include <stdlib.h>

enum { PIECE = 1024, ROUNDS = 3, CONTROL = 0x10000, WINDOW = 0xFF };

static uint8_t packet[SANDBAR_MAX_PACKET], reply[SANDBAR_MAX_REPLY];
static sandbar_node node;

/* By whom a load is permitted while an image judges in slot 3, and by which key. */
typedef struct {
  bool is_there;
  uint8_t initiator, key;
} loader;

/* Those of each image, and the one of slot 3 now. */
static loader loaders[NODE_PUBLISHES + 1];
static loader by = {false, 0x67, 0};

/* ---- pools of any size in the array of pool.c */

static void begin(size_t bytes) {
  is_laid = true;
  pool[0].units = bytes / sizeof(unit);
  pool[0].next = NULL;
  list.next = pool;
}

/* ---- packets */

/* The packet to this node, of that initiator and key. */
static size_t to_node(size_t length) {
  packet[0] = NODE_ADDRESS;
  packet[3] = by.key;
  packet[4] = by.initiator;
  packet[15] = sandbar_crc(packet, 15);
  return length;
}

static sandbar_served served;

/* Whether there is memory for the packet. */
static bool serves(size_t length) {
  return sandbar_serve(&node, 0, packet, to_node(length), SANDBAR_EOP, reply, sizeof reply, &served) == SANDBAR_OK;
}

/* A write of a bank's first bytes with the most bytes that a packet has: the bank keeps all of them. */
static size_t put_longest(uint8_t bank) {
  static uint8_t data[4096];
  put_write(packet, 1, bank, node_banks[bank].base, data, node_banks[bank].size < sizeof data ? node_banks[bank].size : sizeof data);
  return sizeof packet;
}

/* ---- loads */

typedef struct {
  const uint8_t *image;
  size_t length;
} bytes_of;

/* The image that judges at first, and then those that are published. */
static bytes_of image_at(size_t k) {
  if (k == 0) return (bytes_of){node_image, sizeof node_image};
  return (bytes_of){node_publishes[k - 1].image, node_publishes[k - 1].length};
}

/* Whether a write to the boot window is permitted, of no bytes. */
static bool is_permitted(void) {
  return serves(put_write(packet, 1, WINDOW, 0, packet, 0)) && served.kind == SANDBAR_JUDGED && served.verdict == 0;
}

/* Opens a node with an image in all slots. */
static bool opens_with(bytes_of it) {
  sandbar_why why;
  node = (sandbar_node){0};
  return sandbar_open(&node, NODE_ADDRESS, NODE_PORTS, node_banks, NODE_BANKS, node_maps, NODE_MAPS, it.image, it.length, &why) == SANDBAR_OK;
}

/* Looks for an initiator and a key by which a load is permitted while the image judges. */
static loader loader_of(bytes_of it) {
  by = (loader){false, 0x67, 0};
  if (!opens_with(it)) exit(2);
  by.is_there = is_permitted();
  for (unsigned k = 0; !by.is_there && k < 65536; k += 1) {
    by.initiator = (uint8_t)(k >> 8), by.key = (uint8_t)k;
    by.is_there = is_permitted();
  }
  sandbar_close(&node);
  return by;
}

/* Loads an image into a slot: whether memory was there. */
static bool loads(uint8_t slot, bytes_of it) {
  const uint8_t control[4] = {slot, 0, (uint8_t)(it.length >> 8), (uint8_t)it.length};
  for (size_t at = 0; at < it.length; at += PIECE) {
    uint32_t some = (uint32_t)(it.length - at < PIECE ? it.length - at : PIECE);
    if (!serves(put_write(packet, 0, WINDOW, (uint32_t)at, it.image + at, some))) return false;
  }
  return serves(put_write(packet, 1, WINDOW, CONTROL, control, 4)) && served.status == 0;
}

/* Publishes an image for a slot: whether memory was there. */
static bool publishes(uint8_t slot, bytes_of it) {
  sandbar_why why;
  return sandbar_publish(&node, slot, it.image, it.length, &why) == SANDBAR_OK;
}

/* ---- what is done over a pool */

/* Opens the node, and puts the bytes into its banks. */
static bool opens(void) {
  if (!opens_with(image_at(0))) return false;
  for (uint8_t bank = 0; bank < NODE_BANKS; bank += 1)
    if (sandbar_poke(&node, bank, node_banks[bank].base, node_contents[bank].bytes, node_contents[bank].length, node_banks[bank].room) != SANDBAR_OK)
      return false;
  return true;
}

/* Fills each journal, all of them at the same rate. */
static bool fills(void) {
  bool is_full = false;
  while (!is_full) {
    is_full = true;
    for (uint8_t bank = 0; bank < NODE_BANKS; bank += 1) {
      sandbar_journal journal;
      if (sandbar_journal_of(&node, bank, &journal) != SANDBAR_OK) exit(2);
      if (journal.entries == node_banks[bank].room) continue;
      is_full = false;
      if (!serves(put_longest(bank))) return false;
      if (served.kind != SANDBAR_JUDGED) {
        printf("bank %u keeps no packet: kind %u status %u\n", bank, served.kind, served.status);
        exit(2);
      }
    }
  }
  return serves(put_longest(0));
}

/* Loads the image of a place into a slot, but into slot 3 only one by which a load is permitted afterwards. */
static bool loads_at(uint8_t slot, size_t place) {
  if (slot == 3 && !loaders[place].is_there) return true;
  if (!loads(slot, image_at(place))) return false;
  if (slot == 3) by = loaders[place];
  return true;
}

/* Loads each image into all slots, and then each other image into one of them. */
static bool loads_all(void) {
  for (size_t place = 0; place <= NODE_PUBLISHES; place += 1)
    for (size_t other = 0; other <= NODE_PUBLISHES; other += 1) {
      for (uint8_t slot = 0; slot < 4; slot += 1)
        if (!loads_at(slot, place)) return false;
      if (!loads_at((uint8_t)(other % 3), other)) return false;
    }
  return true;
}

/* Whether a pool of so many bytes is enough. */
static bool holds(size_t bytes) {
  begin(bytes);
  by = loaders[0];
  if (!opens()) return false;
  bool is_enough = true;
  for (size_t place = 1; is_enough && place <= NODE_PUBLISHES; place += 1) {
    is_enough = publishes(node_publishes[place - 1].slot, image_at(place));
    if (node_publishes[place - 1].slot == 3) by = loaders[place];
  }
  for (unsigned round = 0; is_enough && round < ROUNDS; round += 1) {
    is_enough = fills() && (!by.is_there || loads_all());
    for (uint8_t bank = 0; is_enough && bank < NODE_BANKS; bank += 1)
      is_enough = sandbar_rotate(&node, bank, node_banks[bank].room) == SANDBAR_OK;
  }
  sandbar_close(&node);
  return is_enough;
}

int main(void) {
  begin(sizeof pool);
  for (size_t k = 0; k <= NODE_PUBLISHES; k += 1) loaders[k] = loader_of(image_at(k));
  if (!holds(sizeof pool)) {
    printf("a pool of %zu bytes is not enough\n", sizeof pool);
    return 2;
  }
  size_t low = 0, high = sizeof pool;
  while (high - low > sizeof(unit)) {
    size_t middle = (low + high) / 2 / sizeof(unit) * sizeof(unit);
    if (holds(middle)) high = middle;
    else low = middle;
  }
  /* In hundredths of a percent. */
  bool is_less = NODE_POOL_BYTES < high;
  unsigned long apart = (unsigned long)((is_less ? high - NODE_POOL_BYTES : NODE_POOL_BYTES - high) * 10000ull / high);
  printf("NODE_POOL_BYTES %lu, least %zu%s: %s%lu.%02lu %% above\n", (unsigned long)NODE_POOL_BYTES, high,
         loaders[0].is_there ? " with loads" : "", is_less ? "-" : "", apart / 100, apart % 100);
  return is_less || apart > 500;
}
