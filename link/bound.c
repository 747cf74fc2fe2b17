/* How large a pool (link/pool.c) has to be, so that `sandbar_serve` never answers SANDBAR_NO_MEMORY and no load is refused memory
 * (docs/EMBEDDING.md, "No memory"): bound PACKETS. It prints what the parts of the sum take, and serves so many random packets over
 * each of four pools of exactly that size. */
#ifndef POOL
#define POOL (4u << 20)
#endif
#include "packets.h"
#include "pool.c"

#include <stdio.h>
#include <stdlib.h>

enum { ROOM = 64, BANK = 65536, DATA = 1024, HEADER = 16, LONGEST = HEADER + DATA + 1, MOST_SLOTS = 512 };

static const uint8_t yes[] = IMAGE_OF(0);
static uint8_t packet[SANDBAR_MAX_PACKET], reply[SANDBAR_MAX_REPLY];

static void fail(const char *what) {
  printf("FAILED: %s\n", what);
  exit(EXIT_FAILURE);
}

/* ---- pools of any size in the array of pool.c */

static void begin(size_t bytes) {
  is_laid = true;
  pool[0].units = bytes / sizeof(unit);
  pool[0].next = NULL;
  list.next = pool;
}

static size_t free_bytes(void) {
  size_t units = 0;
  for (unit *block = list.next; block != NULL; block = block->next) units += block->units;
  return units * sizeof(unit);
}

/* What a block of so many bytes takes. */
static size_t taken(size_t bytes) { return units_of(bytes) * sizeof(unit); }

/* The least pool in which something can be done. */
static size_t least(int (*is_done)(void)) {
  size_t low = 0, high = sizeof pool;
  while (high - low > sizeof(unit)) {
    size_t middle = (low + high) / 2 / sizeof(unit) * sizeof(unit);
    begin(middle);
    if (is_done()) high = middle;
    else low = middle;
  }
  return high;
}

/* ---- nodes */

static uint8_t banks;
static sandbar_node node;

static uint32_t open_node(void) {
  const sandbar_bank both[2] = {{0xA0000000u, BANK, ROOM}, {0, BANK, ROOM}};
  const sandbar_map map = {1, 0};
  sandbar_why why;
  return sandbar_open(&node, 0xFE, 1, both, banks, &map, 1, yes, sizeof yes, &why);
}

static int is_opened(void) {
  if (open_node() != SANDBAR_OK) return 0;
  sandbar_close(&node);
  return 1;
}

static sandbar_served serve(size_t length) {
  sandbar_served served;
  if (sandbar_serve(&node, 0, packet, length, SANDBAR_EOP, reply, sizeof reply, &served) != SANDBAR_OK) fail("a packet");
  return served;
}

/* ---- programs: so many slots, straight on, or each a jump on which two ways come together */

static unsigned slots, is_branched;

static size_t put_image(uint8_t *image) {
  const uint8_t header[16] = {0x42, 0x50, 0x46, 0x41, 1, 0, (uint8_t)slots, (uint8_t)(slots >> 8), 0, 0, 1, 0};
  const uint8_t move[8] = {0xB7}, jump[8] = {0x55}, end[8] = {0x95};
  memcpy(image, header, sizeof header);
  for (unsigned k = 0; k < slots; k += 1)
    memcpy(image + 16 + 8 * k, k == slots - 1 ? end : is_branched && k > 0 ? jump : move, 8);
  return 16 + 8 * (size_t)slots;
}

/* Stages and loads the program into a slot of the node: whether memory was there. */
static int load(uint8_t slot) {
  static uint8_t image[16 + 8 * MOST_SLOTS];
  size_t size = put_image(image);
  const uint8_t control[4] = {slot, 0, (uint8_t)(size >> 8), (uint8_t)size};
  for (size_t at = 0; at < size; at += DATA) {
    uint32_t some = (uint32_t)(size - at < DATA ? size - at : DATA);
    if (serve(put_write(packet, 0, 0xFF, (uint32_t)at, image + at, some)).status != 0) fail("staging");
  }
  return serve(put_write(packet, 1, 0xFF, 0x10000, control, 4)).status == 0;
}

static int is_loaded(void) {
  if (open_node() != SANDBAR_OK) return 0;
  int done = free_bytes() >= taken(LONGEST) && load(0);
  sandbar_close(&node);
  return done;
}

/* What the program takes when it is loaded. */
static size_t kept_of_load(void) {
  begin(sizeof pool);
  if (open_node() != SANDBAR_OK) fail("no node");
  size_t before = free_bytes();
  if (!load(0)) fail("no load");
  size_t kept = before - free_bytes();
  sandbar_close(&node);
  return kept;
}

/* ---- random packets */

static uint64_t state = 1;

static uint32_t any(uint32_t below) {
  state = state * 6364136223846793005u + 1442695040888963407u;
  return (uint32_t)((state >> 33) % below);
}

static size_t put_any(void) {
  static uint8_t data[DATA];
  uint32_t size = any(4) == 0 ? DATA : any(DATA + 1), address = (any(2) ? 0xA0000000u : 0) + any(BANK);
  uint8_t to = (uint8_t)any((uint32_t)banks + 1);
  for (uint32_t k = 0; k < size; k += 1) data[k] = (uint8_t)any(256);
  size_t length = any(3) ? put_write(packet, 0, to, address, data, size) : put_read(packet, 0, to, address, size);
  if (any(8) == 0) packet[any((uint32_t)length)] ^= (uint8_t)(1u << any(8));
  return length;
}

/* Serves so many random packets, some of which load programs. A journal that is full is turned, with the others or by itself. */
static void serve_any(unsigned long count, int loads, int together) {
  if (open_node() != SANDBAR_OK) fail("no node");
  for (unsigned long k = 0; k < count; k += 1) {
    if (loads && any(16) == 0) {
      slots = 2 + any(MOST_SLOTS - 1), is_branched = any(2);
      if (!load((uint8_t)any(4))) fail("a load was refused memory");
    }
    sandbar_served served = serve(put_any());
    if (served.place != SANDBAR_AT_BANK || served.room > 0) continue;
    for (uint8_t bank = 0; bank < banks; bank += 1)
      if ((together || bank == served.extended) && sandbar_rotate(&node, bank, ROOM) != SANDBAR_OK) fail("a journal is not turned");
  }
  sandbar_close(&node);
}

/* A pool of so many bytes in which such packets are served. */
static void try(const char *what, size_t bytes, unsigned long count, int loads, int together) {
  begin(bytes);
  serve_any(count, loads, together);
  printf("%s: %lu packets over %zu bytes, and none was refused memory\n", what, count, bytes);
}

int main(int count, char **words) {
  unsigned long packets = count == 2 ? strtoul(words[1], NULL, 10) : 0;
  if (packets == 0) return 2;
  const unsigned sizes[] = {2, 16, 64, 128, 256, MOST_SLOTS};
  size_t opening[3], block = taken(LONGEST), kept = 0, most = 0;
  for (banks = 1; banks <= 2; banks += 1) {
    opening[banks] = least(is_opened);
    printf("opening, banks of %d bytes with room for %d entries, %u of them: %zu bytes\n", BANK, ROOM, banks, opening[banks]);
  }
  printf("a packet of %d bytes: %zu bytes\n", LONGEST, block);
  banks = 1;
  for (unsigned k = 0; k < sizeof sizes / sizeof *sizes; k += 1)
    for (is_branched = 0; is_branched <= 1; is_branched += 1) {
      slots = sizes[k];
      most = least(is_loaded) - opening[1];
      kept = kept_of_load();
      printf("a program of %u slots%s: %zu bytes, and %zu while it is loaded\n", slots, is_branched ? ", of jumps" : "", kept, most);
    }
  try("one bank", opening[1] + (ROOM + 1) * block, packets, 0, 1);
  try("with loads", opening[1] + (ROOM + 1) * block + 4 * kept + most, packets, 1, 1);
  banks = 2;
  try("two banks, turned together", opening[2] + (2 * ROOM + 1) * block, packets, 0, 1);
  try("two banks, each turned by itself", opening[2] + (2 * ROOM + 1) * block, packets, 0, 0);
  return EXIT_SUCCESS;
}
