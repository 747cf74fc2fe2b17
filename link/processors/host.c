/* include/sandbarstove.h and sandbarstove_frames.h over a module of WebAssembly that wasm2c made C: each node, and each reader of
 * frames, is an instance of the module, with a memory of its own, into which what is lent is copied, and from which what was
 * written is copied back. Numbers are little-endian there, whatever the processor. There is no state beside the instances: `verify`
 * makes one for its own time, and the CRC and the head of a frame need none. */
#include "sandbarstove.h"
#include "sandbarstove_frames.h"
#include "sandbarstove_heap.h"
#include "sandbarstove_module.h"

typedef Z_sandbar_instance_t module;

/* How many pages a node begins with. */
#ifdef PORTABLE_PAGES_AT_OPENING
#define NODE_PAGES PORTABLE_PAGES_AT_OPENING
#if NODE_PAGES < SANDBAR_PAGES
#error PORTABLE_PAGES_AT_OPENING is less than the module begins with
#endif
#else
#define NODE_PAGES SANDBAR_PAGES
#endif

enum {
  LIVE = 0x3A9,
  FRAMES_LIVE = 0x3AA,
  ROOM = SANDBAR_MAX_PACKET + 1, /* a packet that is too long is seen to be */
  IMAGE_ROOM = 4177,             /* the longest image, and one byte more: a longer one has the same fault */
  SMALL = 128,                   /* room for the banks, or for what a call tells */
  MAPS = 0, WHY = 48, IMAGE = 64 /* places in what is lent to be verified: nine maps, why, the image */
};

/* A node, or a reader of frames. The places are in the module's memory. */
struct inside {
  module it;
  uint64_t node, packet, reply, small;
};

/* ---- the module's memory */

static uint8_t *place(module *it, uint64_t at, size_t length) {
  wasm_rt_memory_t *memory = Z_sandbarZ_memory(it);
  if (at > memory->size || length > memory->size - at) sandbar_trap(WASM_RT_TRAP_OOB);
#if WABT_BIG_ENDIAN
  return memory->data + (memory->size - (size_t)at - length);
#else
  return memory->data + at;
#endif
}

static void put(module *it, uint64_t at, const uint8_t *bytes, size_t length) {
  uint8_t *to = place(it, at, length);
#if WABT_BIG_ENDIAN
  for (size_t k = 0; k < length; k += 1) to[length - 1 - k] = bytes[k];
#else
  if (length != 0) memcpy(to, bytes, length);
#endif
}

static void take(module *it, uint64_t at, uint8_t *bytes, size_t length) {
  const uint8_t *from = place(it, at, length);
#if WABT_BIG_ENDIAN
  for (size_t k = 0; k < length; k += 1) bytes[k] = from[length - 1 - k];
#else
  if (length != 0) memcpy(bytes, from, length);
#endif
}

static void put_number(module *it, uint64_t at, uint64_t number, size_t bytes) {
  uint8_t spelled[8];
  for (size_t k = 0; k < bytes; k += 1) spelled[k] = (uint8_t)(number >> 8 * k);
  put(it, at, spelled, bytes);
}

static uint64_t number(module *it, uint64_t at, size_t bytes) {
  uint8_t spelled[8];
  uint64_t is = 0;
  take(it, at, spelled, bytes);
  for (size_t k = bytes; k > 0; k -= 1) is = is << 8 | spelled[k - 1];
  return is;
}

static size_t at_most(size_t a, size_t b) { return a < b ? a : b; }

/* ---- instances */

/* A fresh instance with so many pages; NULL where memory was refused. */
static struct inside *instance(uint32_t pages) {
  rattle_block block = rattle_alloc(sizeof(struct inside), 16);
  if (!block.ok) return NULL;
  struct inside *inside = block.at;
  memset(inside, 0, sizeof *inside);
  if (!rt_take_memory(Z_sandbarZ_memory(&inside->it), pages)) {
    rattle_dealloc(inside);
    return NULL;
  }
  Z_sandbar_instantiate(&inside->it);
  return inside;
}

static void end(struct inside *inside) {
  Z_sandbar_free(&inside->it);
  rattle_dealloc(inside);
}

/* What is in `unused` of a handle that is live: its pointer, folded. A handle of which a bit flipped is none, and its pointer is not
 * followed. */
static uint32_t check_of(uint64_t inside) {
  return (uint32_t)inside ^ (uint32_t)(inside >> 32) ^ 0x5A3C96E1u;
}

static struct inside *inside_of(const sandbar_node *node) {
  bool is_whole = node->live == LIVE && node->unused == check_of(node->inside);
  return is_whole ? (struct inside *)(uintptr_t)node->inside : NULL;
}

/* ---- what is verified */

/* Maps and an image in the module's memory: the place of both, 0 where memory was refused. */
static uint64_t lend(module *it, const sandbar_map *maps, size_t map_count, const uint8_t *image, size_t image_length) {
  uint64_t block = Z_sandbarZ_malloc(it, IMAGE + IMAGE_ROOM);
  if (block == 0) return 0;
  for (size_t k = 0; k < map_count; k += 1) {
    put_number(it, block + MAPS + 4 * k, maps[k].cells, 2);
    put_number(it, block + MAPS + 4 * k + 2, maps[k].peak, 2);
  }
  put_number(it, block + WHY, 0, 4);
  put(it, block + IMAGE, image, image_length);
  return block;
}

static void give_back(module *it, uint64_t block, sandbar_why *why) {
  why->code = (uint16_t)number(it, block + WHY, 2);
  why->slot = (uint16_t)number(it, block + WHY + 2, 2);
  Z_sandbarZ_free(it, block);
}

uint32_t sandbar_verify(const sandbar_map *maps, size_t map_count, const uint8_t *image, size_t image_length,
                        sandbar_why *why) {
  uint32_t code = SANDBAR_NO_MEMORY;
  size_t count = at_most(map_count, 9), length = at_most(image_length, IMAGE_ROOM);
  why->code = why->slot = 0;
  struct inside *inside = instance(SANDBAR_PAGES);
  if (inside == NULL) return code;
  module *it = &inside->it;
  uint64_t block = lend(it, maps, count, image, length);
  if (block != 0) {
    code = Z_sandbarZ_sandbar_verify(it, block + MAPS, count, block + IMAGE, length, block + WHY);
    give_back(it, block, why);
  }
  end(inside);
  return code;
}

/* ---- nodes */

/* Room for what each call on a node copies; false where memory was refused. */
static bool has_rooms(struct inside *inside) {
  module *it = &inside->it;
  inside->packet = Z_sandbarZ_malloc(it, ROOM);
  inside->reply = Z_sandbarZ_malloc(it, SANDBAR_MAX_REPLY);
  inside->small = Z_sandbarZ_malloc(it, SMALL);
  inside->node = Z_sandbarZ_malloc(it, sizeof(sandbar_node));
  if (inside->packet == 0 || inside->reply == 0 || inside->small == 0 || inside->node == 0) return false;
  put_number(it, inside->node, 0, 8);
  put_number(it, inside->node + 8, 0, 8);
  return true;
}

static void put_banks(struct inside *inside, const sandbar_bank *banks, size_t count) {
  for (size_t k = 0; k < count; k += 1) {
    put_number(&inside->it, inside->small + 12 * k, banks[k].base, 4);
    put_number(&inside->it, inside->small + 12 * k + 4, banks[k].size, 4);
    put_number(&inside->it, inside->small + 12 * k + 8, banks[k].room, 4);
  }
}

uint32_t sandbar_open(sandbar_node *node, uint8_t address, uint8_t ports, const sandbar_bank *banks, size_t bank_count,
                      const sandbar_map *maps, size_t map_count, const uint8_t *image, size_t image_length,
                      sandbar_why *why) {
  if (inside_of(node) != NULL) return SANDBAR_IS_OPEN;
  uint32_t code = SANDBAR_NO_MEMORY;
  size_t bank_some = at_most(bank_count, 9), map_some = at_most(map_count, 9);
  size_t length = at_most(image_length, IMAGE_ROOM);
  why->code = why->slot = 0;
  struct inside *inside = instance(NODE_PAGES);
  if (inside == NULL) return code;
  module *it = &inside->it;
  uint64_t block = has_rooms(inside) ? lend(it, maps, map_some, image, length) : 0;
  if (block != 0) {
    put_banks(inside, banks, bank_some);
    code = Z_sandbarZ_sandbar_open(it, inside->node, address, ports, inside->small, bank_some, block + MAPS, map_some,
                                   block + IMAGE, length, block + WHY);
    give_back(it, block, why);
  }
  if (code != SANDBAR_OK) {
    end(inside);
    return code;
  }
  node->inside = (uint64_t)(uintptr_t)inside;
  node->live = LIVE;
  node->unused = check_of(node->inside);
  return code;
}

uint32_t sandbar_publish(sandbar_node *node, uint8_t slot, const uint8_t *image, size_t image_length, sandbar_why *why) {
  struct inside *inside = inside_of(node);
  if (inside == NULL) return SANDBAR_NO_NODE;
  module *it = &inside->it;
  uint32_t code = SANDBAR_NO_MEMORY;
  size_t length = at_most(image_length, IMAGE_ROOM);
  why->code = why->slot = 0;
  if (slot > 3) return SANDBAR_BAD_SLOT;
  uint64_t block = lend(it, NULL, 0, image, length);
  if (block != 0) {
    code = Z_sandbarZ_sandbar_publish(it, inside->node, slot, block + IMAGE, length, block + WHY);
    give_back(it, block, why);
  }
  return code;
}

uint32_t sandbar_close(sandbar_node *node) {
  struct inside *inside = inside_of(node);
  if (inside == NULL) return SANDBAR_NO_NODE;
  uint32_t code = Z_sandbarZ_sandbar_close(&inside->it, inside->node);
  end(inside);
  node->inside = 0;
  node->live = 0;
  node->unused = 0;
  return code;
}

static void take_served(module *it, uint64_t at, sandbar_served *served) {
  served->verdict = number(it, at, 8);
  served->generation = (uint32_t)number(it, at + 8, 4);
  served->reply_length = (uint32_t)number(it, at + 12, 4);
  served->address = (uint32_t)number(it, at + 16, 4);
  served->length = (uint32_t)number(it, at + 20, 4);
  served->room = (uint32_t)number(it, at + 24, 4);
  served->kind = (uint8_t)number(it, at + 28, 1);
  served->status = (uint8_t)number(it, at + 29, 1);
  served->command = (uint8_t)number(it, at + 30, 1);
  served->place = (uint8_t)number(it, at + 31, 1);
  served->extended = (uint8_t)number(it, at + 32, 1);
  served->found = (uint8_t)number(it, at + 33, 1);
  served->found_slot = (uint8_t)number(it, at + 34, 1);
  served->unused = 0, served->unused_word = 0;
}

uint32_t sandbar_serve(sandbar_node *node, uint8_t port, const uint8_t *packet, size_t packet_length, uint8_t end,
                       uint8_t *reply, size_t reply_room, sandbar_served *served) {
  struct inside *inside = inside_of(node);
  if (inside == NULL) return SANDBAR_NO_NODE;
  module *it = &inside->it;
  size_t length = at_most(packet_length, ROOM);
  put(it, inside->packet, packet, length);
  uint32_t code = Z_sandbarZ_sandbar_serve(it, inside->node, port, inside->packet, length, end, inside->reply,
                                           at_most(reply_room, SANDBAR_MAX_REPLY), inside->small);
  if (code != SANDBAR_OK) return code;
  take_served(it, inside->small, served);
  take(it, inside->reply, reply, served->reply_length);
  return code;
}

/* ---- journals */

uint32_t sandbar_journal_of(sandbar_node *node, uint8_t bank, sandbar_journal *journal) {
  struct inside *inside = inside_of(node);
  if (inside == NULL) return SANDBAR_NO_NODE;
  module *it = &inside->it;
  uint32_t code = Z_sandbarZ_sandbar_journal_of(it, inside->node, bank, inside->small);
  if (code != SANDBAR_OK) return code;
  journal->entries = number(it, inside->small, 8);
  journal->loaded = (uint32_t)number(it, inside->small + 8, 4);
  journal->unused = 0;
  return code;
}

static void take_entry(module *it, uint64_t at, sandbar_entry *entry) {
  entry->number = number(it, at, 8);
  entry->verdict = number(it, at + 8, 8);
  entry->generation = (uint32_t)number(it, at + 16, 4);
  entry->packet_length = (uint32_t)number(it, at + 20, 4);
  entry->port = (uint8_t)number(it, at + 24, 1);
  entry->status = (uint8_t)number(it, at + 25, 1);
  entry->end = (uint8_t)number(it, at + 26, 1);
  entry->unused = 0, entry->unused_word = 0;
}

uint32_t sandbar_entry_at(sandbar_node *node, uint8_t bank, uint32_t which, uint8_t *packet, size_t packet_room,
                          sandbar_entry *entry) {
  struct inside *inside = inside_of(node);
  if (inside == NULL) return SANDBAR_NO_NODE;
  module *it = &inside->it;
  uint32_t code = Z_sandbarZ_sandbar_entry_at(it, inside->node, bank, which, inside->packet, at_most(packet_room, ROOM),
                                              inside->small);
  if (code != SANDBAR_OK) return code;
  take_entry(it, inside->small, entry);
  take(it, inside->packet, packet, entry->packet_length);
  return code;
}

uint32_t sandbar_rotate(sandbar_node *node, uint8_t bank, uint32_t room) {
  struct inside *inside = inside_of(node);
  return inside == NULL ? SANDBAR_NO_NODE : Z_sandbarZ_sandbar_rotate(&inside->it, inside->node, bank, room);
}

/* ---- the memory of banks */

enum { BANK = 1048576 }; /* the most bytes of a bank: a longer request lies outside each, and none of it is looked at */

/* What `peek` of these bytes comes to. A bank has all between two of its bytes: where the first and the last piece of them lie
 * in it, all do. No memory is asked for. */
static uint32_t looked_at(struct inside *inside, uint8_t bank, uint32_t address, size_t length) {
  module *it = &inside->it;
  size_t piece = at_most(length, SANDBAR_MAX_PACKET);
  uint32_t code = Z_sandbarZ_sandbar_peek(it, inside->node, bank, address, inside->packet, piece);
  if (code != SANDBAR_OK) return code;
  if (length > BANK || length - piece > UINT32_MAX - address) return SANDBAR_NO_ROOM;
  uint32_t last = address + (uint32_t)(length - piece);
  return Z_sandbarZ_sandbar_peek(it, inside->node, bank, last, inside->packet, piece);
}

/* Reads through the room for a packet, piece by piece, so that no memory is asked for. */
uint32_t sandbar_peek(sandbar_node *node, uint8_t bank, uint32_t address, uint8_t *bytes, size_t length) {
  struct inside *inside = inside_of(node);
  if (inside == NULL) return SANDBAR_NO_NODE;
  module *it = &inside->it;
  uint32_t code = looked_at(inside, bank, address, length);
  size_t piece = 0;
  for (size_t done = 0; code == SANDBAR_OK && done < length; done += piece) {
    piece = at_most(length - done, SANDBAR_MAX_PACKET);
    code = Z_sandbarZ_sandbar_peek(it, inside->node, bank, address + (uint32_t)done, inside->packet, piece);
    if (code == SANDBAR_OK) take(it, inside->packet, bytes + done, piece);
  }
  return code;
}

/* Pokes through the room for a packet, piece by piece, so that no memory is asked for but for a larger journal, which the first
 * piece begins, if there is memory: each further one turns it in place. */
uint32_t sandbar_poke(sandbar_node *node, uint8_t bank, uint32_t address, const uint8_t *bytes, size_t length,
                      uint32_t room) {
  struct inside *inside = inside_of(node);
  if (inside == NULL) return SANDBAR_NO_NODE;
  module *it = &inside->it;
  uint32_t code = looked_at(inside, bank, address, length);
  if (code != SANDBAR_OK) return code;
  size_t done = 0, piece = 0;
  do {
    piece = at_most(length - done, SANDBAR_MAX_PACKET);
    put(it, inside->packet, bytes + done, piece);
    code = Z_sandbarZ_sandbar_poke(it, inside->node, bank, address + (uint32_t)done, inside->packet, piece, room);
    done += piece;
  } while (code == SANDBAR_OK && done < length);
  return code;
}

/* ---- cells */

uint32_t sandbar_word(sandbar_node *node, uint8_t map, uint16_t cell, uint64_t *word) {
  struct inside *inside = inside_of(node);
  if (inside == NULL) return SANDBAR_NO_NODE;
  uint32_t code = Z_sandbarZ_sandbar_word(&inside->it, inside->node, map, cell, inside->small);
  if (code == SANDBAR_OK) *word = number(&inside->it, inside->small, 8);
  return code;
}

/* ---- scrubbing */

uint32_t sandbar_scrub(sandbar_node *node, uint8_t part, const uint8_t *image, size_t image_length,
                       sandbar_scrubbed *scrubbed) {
  struct inside *inside = inside_of(node);
  if (inside == NULL) return SANDBAR_NO_NODE;
  module *it = &inside->it;
  size_t length = at_most(image_length, IMAGE_ROOM);
  put(it, inside->packet, image, length);
  uint32_t code = Z_sandbarZ_sandbar_scrub(it, inside->node, part, inside->packet, length, inside->small);
  if (code != SANDBAR_OK && code != SANDBAR_NO_MEMORY) return code;
  scrubbed->first = number(it, inside->small, 8);
  scrubbed->mended = (uint8_t)number(it, inside->small + 8, 1);
  scrubbed->withdrawn = (uint8_t)number(it, inside->small + 9, 1);
  scrubbed->restored = (uint8_t)number(it, inside->small + 10, 1);
  scrubbed->sizes = (uint8_t)number(it, inside->small + 11, 1);
  scrubbed->journals = (uint8_t)number(it, inside->small + 12, 1);
  scrubbed->unused = 0, scrubbed->unused_half = 0;
  return code;
}

uint32_t sandbar_scrub_each(sandbar_node *node, uint32_t each) {
  struct inside *inside = inside_of(node);
  return inside == NULL ? SANDBAR_NO_NODE : Z_sandbarZ_sandbar_scrub_each(&inside->it, inside->node, each);
}

/* ---- frames */

static struct inside *reader_of(const sandbar_frames *frames) {
  bool is_whole = frames->live == FRAMES_LIVE && frames->unused == check_of(frames->inside);
  return is_whole ? (struct inside *)(uintptr_t)frames->inside : NULL;
}

uint32_t sandbar_frames_open(sandbar_frames *frames) {
  if (reader_of(frames) != NULL) return SANDBAR_IS_OPEN;
  uint32_t code = SANDBAR_NO_MEMORY;
  struct inside *inside = instance(SANDBAR_PAGES);
  if (inside == NULL) return code;
  if (has_rooms(inside)) code = Z_sandbarZ_sandbar_frames_open(&inside->it, inside->node);
  if (code != SANDBAR_OK) {
    end(inside);
    return code;
  }
  frames->inside = (uint64_t)(uintptr_t)inside;
  frames->live = FRAMES_LIVE;
  frames->unused = check_of(frames->inside);
  return code;
}

/* Takes through the room for a reply, piece by piece, so that no memory is asked for: where nothing came whole, all of a piece was
 * taken. */
uint32_t sandbar_frames_take(sandbar_frames *frames, const uint8_t *bytes, size_t length, uint8_t *packet,
                             size_t packet_room, sandbar_came *came) {
  struct inside *inside = reader_of(frames);
  if (inside == NULL) return SANDBAR_NO_NODE;
  module *it = &inside->it;
  size_t taken = 0;
  do {
    size_t piece = at_most(length - taken, SANDBAR_MAX_REPLY);
    put(it, inside->reply, bytes + taken, piece);
    uint32_t code = Z_sandbarZ_sandbar_frames_take(it, inside->node, inside->reply, piece, inside->packet,
                                                   at_most(packet_room, ROOM), inside->small);
    if (code != SANDBAR_OK) return code;
    taken += (size_t)number(it, inside->small, 8);
    came->kind = (uint8_t)number(it, inside->small + 12, 1);
  } while (came->kind == SANDBAR_NOTHING && taken < length);
  came->taken = taken;
  came->length = (uint32_t)number(it, inside->small + 8, 4);
  came->end = (uint8_t)number(it, inside->small + 13, 1);
  came->flag = (uint8_t)number(it, inside->small + 14, 1);
  came->unused = 0;
  take(it, inside->packet, packet, came->length);
  return SANDBAR_OK;
}

uint32_t sandbar_frames_close(sandbar_frames *frames) {
  struct inside *inside = reader_of(frames);
  if (inside == NULL) return SANDBAR_NO_NODE;
  uint32_t code = Z_sandbarZ_sandbar_frames_close(&inside->it, inside->node);
  end(inside);
  frames->inside = 0;
  frames->live = 0;
  frames->unused = 0;
  return code;
}

/* ---- calls without a node */

/* The bytes by themselves, and not the module's, which would want an instance: what the frame is, a reserved byte, and ten of the
 * length, the highest first. */
void sandbar_frames_head(uint32_t reply_length, uint8_t *head) {
  memset(head, 0, SANDBAR_FRAME_HEAD);
  for (size_t k = 0; k < 4; k += 1) head[SANDBAR_FRAME_HEAD - 1 - k] = (uint8_t)(reply_length >> 8 * k);
}

/* The CRC bit by bit (ECSS-E-ST-50-52C, 8-bit CRC), and not the module's, which would want an instance. */
uint8_t sandbar_crc(const uint8_t *bytes, size_t length) {
  uint8_t crc = 0;
  for (size_t k = 0; k < length; k += 1) {
    crc ^= bytes[k];
    for (int bit = 0; bit < 8; bit += 1) crc = (uint8_t)((crc >> 1) ^ (crc & 1 ? 0xE0 : 0));
  }
  return crc;
}

/* It looks at no instance. */
uint32_t sandbar_version(void) { return Z_sandbarZ_sandbar_version(NULL); }
