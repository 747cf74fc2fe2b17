/* Upsets: one bit of a node's memory flips between two packets, and what comes then is compared with what comes if none flips.
 *
 *   upsets IMAGES                       the regions of the node's memory, and how many bytes each has
 *   upsets IMAGES REGION TRIALS SEED [EACH]
 *                                       a line a trial: region, place, bit, class, first other packet, what was done at its end
 *   upsets IMAGES scrubs                scrubs packets and sizes that changed, and programs, of which none can be mended
 *   upsets IMAGES words EACH STEP       a line a word of the node's handle and control: region, block, its size, word, what it has, and
 *                                       for each bit, or each STEP-th, what came of its flip, a letter each (`letter_of`)
 *
 * IMAGES has the programs of slots 0 to 3, a line of digits each: those of tests/cases/upsets.cases, which `rules` says again.
 * With EACH the program that judges is scrubbed before each packet of so many. Generations are then not compared, nor what a scrub
 * found: a program that is mended has a new one. REGION is a name of the first form, `any` for all of them by their bytes, or
 * `none`: then nothing flips. `pairs` is two flips: one in what switches scrubs (`switches`, if there are scrubs), and 20 packets
 * later one in operations. Each trial is a process, so that it may end as it likes. The node's memory lies between pages that nobody
 * may touch. The same seed gives the same flips. `link/upsets` makes the table of docs/TESTING.md of the lines. It wants a system
 * with fork and signals. */
#include "packets.h"
#include "sandbarstove_heap.h"
#ifdef SOURCE
#include "upsets.h"
#endif

#include <ctype.h>
#include <signal.h>
#include <stdarg.h>
#include <stdbool.h>
#include <stdio.h>
#include <stdlib.h>
#include <sys/mman.h>
#include <sys/time.h>
#include <sys/wait.h>
#include <ucontext.h>
#include <unistd.h>

enum { PORTS = 2, BANKS = 2, MAPS = 2, SLOTS = 4, ROOM = 500, STACK = 512, STAGING = 16384, PAGE = 4096 };
static const sandbar_bank banks[BANKS] = {{0xA0000000u, 16384, ROOM}, {0xB0000000u, 4096, ROOM}};
static const sandbar_map maps[MAPS] = {{8, 0}, {4, 1}};

/* How many packets are served before the flip, and after it. */
enum { BEFORE = 200, AFTER = 200 };

/* How much of the processor's time a packet may take before it is said to have no end, in microseconds. All packets after the
 * flip take less than 1,000 together. */
enum { PATIENCE = 100000 };

_Noreturn static void fail(const char *form, ...) {
  va_list words;
  va_start(words, form);
  fputs("upsets: ", stderr);
  vfprintf(stderr, form, words);
  fputc('\n', stderr);
  va_end(words);
  exit(2);
}

/* Memory for all processes, or for each its own. */
static void *memory(size_t size, bool shared) {
  void *at = mmap(NULL, size, PROT_READ | PROT_WRITE, (shared ? MAP_SHARED : MAP_PRIVATE) | MAP_ANONYMOUS, -1, 0);
  if (at == MAP_FAILED) fail("no memory");
  return at;
}

/* ---- the node's memory: a handle and the blocks of its heap, apart from each other, in an arena between guard pages */

enum { ARENA = 1 << 20, GUARD = 128 << 20, MOST_BLOCKS = 4096, APART = 32, PAINT = 0xEE };

struct block {
  uint32_t at, size;
  bool live;
};

static uint8_t *arena;
static sandbar_node *node;
static struct block blocks[MOST_BLOCKS];
static uint32_t block_count, top;
static bool freed_twice;
static size_t most = SIZE_MAX; /* a larger block is refused */

static void open_arena(void) {
  const int private = MAP_PRIVATE | MAP_ANONYMOUS | MAP_NORESERVE;
  uint8_t *guarded = mmap((void *)0x200000000000, 2 * (size_t)GUARD, PROT_NONE, private, -1, 0);
  if (guarded == MAP_FAILED) fail("no memory");
  arena = guarded + GUARD;
  if (mprotect(arena, ARENA, PROT_READ | PROT_WRITE) != 0) fail("no memory");
  memset(arena, PAINT, ARENA);
  node = memset(arena, 0, sizeof *node);
  top = sizeof *node + APART;
}

/* The size of a block as each heap here has it: a multiple of 16. */
static uint32_t whole(size_t size) { return (uint32_t)(size + 15) / 16 * 16; }

static rattle_block taken(struct block *block, size_t size) {
  block->size = (uint32_t)size, block->live = true;
  return (rattle_block){true, arena + block->at};
}

static struct block *block_at(const void *at) {
  for (uint32_t k = 0; k < block_count; k += 1)
    if (blocks[k].live && arena + blocks[k].at == (const uint8_t *)at) return &blocks[k];
  return NULL;
}

rattle_block rattle_alloc(size_t size, size_t align) {
  static char nowhere;
  if (size == 0) size = align;
  if (size > most) return (rattle_block){false, &nowhere};
  for (uint32_t k = 0; k < block_count; k += 1)
    if (!blocks[k].live && size < ARENA && whole(blocks[k].size) == whole(size)) return taken(&blocks[k], size);
  if (block_count == MOST_BLOCKS || size > ARENA - APART - 16 - top) return (rattle_block){false, &nowhere};
  struct block *block = &blocks[block_count++];
  block->at = top;
  top += whole(size) + APART;
  return taken(block, size);
}

void rattle_dealloc(void *at) {
  struct block *block = block_at(at);
  if (block == NULL) {
    freed_twice = true;
    return;
  }
  block->live = false;
  memset(at, PAINT, block->size);
}

rattle_block rattle_realloc(void *at, size_t kept, size_t size, size_t align) {
  struct block *block = block_at(at);
  rattle_block other = rattle_alloc(size, align);
  if (block == NULL) freed_twice = true;
  if (block == NULL || !other.ok) return other;
  memcpy(other.at, at, kept < size ? kept : size);
  rattle_dealloc(at);
  return other;
}

/* Whether a byte of the arena that is nobody's was written. */
static bool is_spilled(void) {
  uint32_t at = sizeof *node;
  for (uint32_t k = 0; k <= block_count; k += 1) {
    uint32_t end = k < block_count ? blocks[k].at : top;
    for (; at < end; at += 1)
      if (arena[at] != PAINT) return true;
    if (k < block_count && blocks[k].live) at += blocks[k].size;
  }
  return false;
}

/* ---- what the programs permit */

enum { READS = 1, WRITES, RMWS, QUOTAS };
static const uint32_t limits[QUOTAS] = {[READS] = 30, [WRITES] = 22, [RMWS] = 10};

/* A rule: commands with key 20 of these initiators to these addresses, at most so many as its quota has. */
static const struct rule {
  uint8_t command, first, last, extended;
  uint32_t low, high;
  uint8_t quota; /* 0: none */
} rules[] = {{SANDBAR_READ, 0x00, 0xFF, 0, 0xA0000000u, 0xA0000FFFu, 0},
             {SANDBAR_READ, 0x67, 0x67, 0, 0xA0002000u, 0xA0002FFFu, 0},
             {SANDBAR_READ, 0x00, 0xFF, 1, 0xB0000000u, 0xB00000FFu, READS},
             {SANDBAR_WRITE, 0x67, 0x67, 0, 0xA0002000u, 0xA0002FFFu, 0},
             {SANDBAR_WRITE, 0x68, 0x6B, 0, 0xA0000000u, 0xA00003FFu, WRITES},
             {SANDBAR_RMW, 0x67, 0x67, 0, 0xA0001000u, 0xA00010FFu, RMWS},
             {SANDBAR_READ, 0x67, 0x67, 0xFF, 0, 0xFFFFFFFFu, 0},
             {SANDBAR_WRITE, 0x67, 0x67, 0xFF, 0, 0xFFFFFFFFu, 0}};

struct packet {
  uint8_t bytes[1400];
  uint16_t length;
  uint8_t port, end, quota;
  bool permitted; /* by the rules, as long as its quota lasts */
};

static struct packet *packets; /* BEFORE and AFTER */

static uint32_t number(const uint8_t *bytes, int count) {
  uint32_t it = 0;
  for (int k = 0; k < count; k += 1) it = it << 8 | bytes[k];
  return it;
}

/* Whether a rule lets a packet pass, whose bytes may be any. */
static bool agrees(const struct rule *rule, const uint8_t *bytes) {
  uint8_t command = bytes[2] & 0x20 ? SANDBAR_WRITE : bytes[2] & 0x10 ? SANDBAR_RMW : SANDBAR_READ;
  uint64_t low = number(bytes + 8, 4), length = number(bytes + 12, 3), high = low + length - (length != 0);
  return command == rule->command && bytes[3] == 0x20 && bytes[4] >= rule->first && bytes[4] <= rule->last &&
         bytes[7] == rule->extended && low >= rule->low && high <= rule->high;
}

static void judge(struct packet *packet) {
  for (size_t k = 0; k < sizeof rules / sizeof *rules; k += 1)
    if (agrees(&rules[k], packet->bytes)) packet->permitted = true, packet->quota = rules[k].quota;
}

/* ---- packets */

/* Instructions (ECSS-E-ST-50-52C, 5.3 to 5.5) of commands with a reply and rising addresses. */
enum { READ = 0x4C, WRITE = 0x6C, VERIFIED = 0x7C /* before it is written */, RMW = 0x5C };

static uint64_t state;

/* The numbers of splitmix64: two seeds have nothing in common. */
static uint32_t any(uint32_t below) {
  uint64_t it = state += 0x9E3779B97F4A7C15u;
  it = (it ^ it >> 30) * 0xBF58476D1CE4E5B9u;
  it = (it ^ it >> 27) * 0x94D049BB133111EBu;
  return (uint32_t)((it ^ it >> 31) >> 32) % below;
}

/* What a command asks for. */
struct asked {
  uint8_t instruction, extended;
  uint32_t address, length;
};

static void put(struct packet *packet, uint8_t key, uint8_t initiator, uint32_t transaction, struct asked it,
                const uint8_t *data) {
  put_header(packet->bytes, it.instruction, (uint16_t)transaction, it.extended, it.address, it.length);
  packet->bytes[3] = key;
  packet->bytes[4] = initiator;
  packet->bytes[15] = sandbar_crc(packet->bytes, 15);
  packet->length = 16;
  if (it.instruction == READ) return;
  memcpy(packet->bytes + 16, data, it.length);
  packet->bytes[16 + it.length] = sandbar_crc(data, it.length);
  packet->length = (uint16_t)(17 + it.length);
}

/* The commands that a node meets: of a hundred drawn numbers one has those below its own. A length of 0 is any up to 32. */
static const struct kind {
  uint8_t below, instruction, extended;
  uint32_t low, span, length;
} kinds[] = {{13, READ, 1, 0xB0000000u, 0x120, 0},    {26, READ, 0, 0xA0000000u, 0x1040, 0},
             {38, READ, 0, 0xA0001FF0u, 0x1020, 0},   {42, WRITE, 1, 0xB0000000u, 1, 0},
             {60, WRITE, 0, 0xA0001FF8u, 0x1000, 0},  {80, WRITE, 0, 0xA0000000u, 0x410, 0},
             {90, RMW, 0, 0xA0000FF8u, 0x110, 8},     {92, READ, 0xFF, 0x10000, 1, 8},
             {94, READ, 0xFF, 0, 700, 0},             {97, WRITE, 0xFF, 1000, 300, 0}};

/* A command that the rules permit or deny, or bytes that are none; some with a wrong check. */
static void draw(struct packet *packet, uint32_t transaction) {
  uint8_t data[32], key = any(12) == 0 ? 0 : 0x20, initiator = any(3) == 0 ? 0x67 : (uint8_t)(0x67 + any(6));
  uint32_t drawn = any(100), length = 1 + any(32);
  for (size_t at = 0; at < sizeof data; at += 1) data[at] = (uint8_t)any(256);
  packet->port = (uint8_t)any(PORTS);
  packet->end = any(50) == 0 ? SANDBAR_EEP : SANDBAR_EOP;
  memcpy(packet->bytes, data, length);
  packet->length = (uint16_t)length;
  for (size_t k = 0; k < sizeof kinds / sizeof *kinds; k += 1) {
    const struct kind *kind = &kinds[k];
    if (drawn >= kind->below) continue;
    uint8_t instruction = kind->instruction == WRITE && any(3) == 0 ? VERIFIED : kind->instruction;
    struct asked asked = {instruction, kind->extended, kind->low + any(kind->span), kind->length != 0 ? kind->length : length};
    put(packet, key, initiator, transaction, asked, data);
    break;
  }
  if (packet->length > 32 && any(25) == 0) packet->bytes[packet->length - 1] ^= 1;
  judge(packet);
}

/* An image of IMAGES. */
static struct image {
  uint8_t bytes[1300];
  uint32_t length;
} images[SLOTS];

static uint32_t slots_of(const struct image *image) { return (uint32_t)image->bytes[6] | (uint32_t)image->bytes[7] << 8; }

/* Two packets that load a slot's program: what is staged, and the control write. */
static void put_load(struct packet *two, uint8_t slot, uint32_t transaction) {
  const struct image *image = &images[slot];
  const uint8_t control[4] = {slot, 0, (uint8_t)(image->length >> 8), (uint8_t)image->length};
  memset(two, 0, 2 * sizeof *two);
  put(&two[0], 0x20, 0x67, transaction, (struct asked){WRITE, 0xFF, 0, image->length}, image->bytes);
  put(&two[1], 0x20, 0x67, transaction + 1, (struct asked){WRITE, 0xFF, 0x10000, sizeof control}, control);
  judge(&two[0]), judge(&two[1]);
}

static void read_images(const char *path) {
  static char line[2 * sizeof images[0].bytes + 2];
  FILE *in = fopen(path, "r");
  if (in == NULL) fail("cannot read %s", path);
  for (int slot = 0; slot < SLOTS; slot += 1) {
    if (fgets(line, sizeof line, in) == NULL) fail("%s has not four lines", path);
    for (const char *hex = line; isxdigit((unsigned char)hex[0]) && isxdigit((unsigned char)hex[1]); hex += 2) {
      const char two[3] = {hex[0], hex[1], 0};
      images[slot].bytes[images[slot].length++] = (uint8_t)strtoul(two, NULL, 16);
    }
  }
  fclose(in);
}

/* ---- what comes of a packet, and what a node has in the end */

struct answer {
  uint32_t code, sum;
  bool spilled; /* more than the reply was written */
  sandbar_served served;
};

struct end {
  uint32_t banks, words, journals[BANKS]; /* how many entries */
  uint32_t loaded;                        /* how many programs were loaded or mended */
  uint32_t entries[BANKS][ROOM];          /* a sum of each */
  bool damaged[BANKS][ROOM];              /* it is reported as damaged */
};

static uint8_t *reply;      /* SANDBAR_MAX_REPLY bytes, after which nobody may write */
static uint32_t last_reply; /* how many of them are the reply of the last packet that was served */

static uint32_t sum_of(const void *bytes, size_t length, uint32_t sum) {
  for (size_t k = 0; k < length; k += 1) sum = (sum ^ ((const uint8_t *)bytes)[k]) * 16777619u;
  return sum;
}

static uint32_t each; /* a scrub before each packet of so many; 0: none */

/* Whether a reply has a generation: that of a read of the load result. */
static bool has_generation(const struct packet *packet) {
  return packet->length >= 16 && packet->bytes[7] == 0xFF && number(packet->bytes + 8, 4) == 0x10000;
}

static struct answer serve(const struct packet *packet) {
  static uint8_t paint[SANDBAR_MAX_REPLY];
  struct answer answer;
  memset(paint, PAINT, sizeof paint);
  memset(reply, PAINT, SANDBAR_MAX_REPLY);
  memset(&answer, 0, sizeof answer);
  answer.code = sandbar_serve(node, packet->port, packet->bytes, packet->length, packet->end, reply, SANDBAR_MAX_REPLY,
                              &answer.served);
  if (each != 0) answer.served.generation = 0, answer.served.found = SANDBAR_UNSCRUBBED;
  uint32_t length = answer.served.reply_length;
  if (length > SANDBAR_MAX_REPLY) length = 0;
  last_reply = length;
  answer.sum = sum_of(reply, each != 0 && has_generation(packet) ? 0 : length, 2166136261u);
  answer.spilled = memcmp(reply + length, paint, SANDBAR_MAX_REPLY - length) != 0;
  return answer;
}

static bool is_done(const struct answer *answer) {
  return answer->code == SANDBAR_OK && answer->served.kind == SANDBAR_JUDGED && answer->served.status == 0;
}

static void read_entries(uint8_t bank, struct end *end) {
  static uint8_t packet[SANDBAR_MAX_PACKET];
  sandbar_journal journal = {0};
  uint32_t code = sandbar_journal_of(node, bank, &journal);
  end->journals[bank] = sum_of(&journal.entries, sizeof journal.entries, code + (each == 0 ? journal.loaded : 0));
  end->loaded = journal.loaded;
  for (uint32_t k = 0; k < journal.entries && k < ROOM; k += 1) {
    sandbar_entry entry;
    memset(&entry, 0, sizeof entry);
    code = sandbar_entry_at(node, bank, k, packet, sizeof packet, &entry);
    end->damaged[bank][k] = code == SANDBAR_DAMAGED;
    if (each != 0) entry.generation = 0;
    uint32_t sum = sum_of(&entry, sizeof entry, code);
    if (entry.packet_length <= sizeof packet) sum = sum_of(packet, entry.packet_length, sum);
    end->entries[bank][k] = sum;
  }
}

/* Whether an entry is another and is not reported as damaged, and whether one is reported. */
static bool is_other_entry(const struct end *end, const struct end *wanted, uint8_t bank, uint32_t k) {
  return end->entries[bank][k] != wanted->entries[bank][k] && !end->damaged[bank][k];
}

static bool is_reported(const struct end *end) {
  for (uint8_t bank = 0; bank < BANKS; bank += 1)
    for (uint32_t k = 0; k < ROOM; k += 1)
      if (end->damaged[bank][k]) return true;
  return false;
}

static bool are_other_entries(const struct end *end, const struct end *wanted) {
  for (uint8_t bank = 0; bank < BANKS; bank += 1) {
    if (end->journals[bank] != wanted->journals[bank]) return true;
    for (uint32_t k = 0; k < ROOM; k += 1)
      if (is_other_entry(end, wanted, bank, k)) return true;
  }
  return false;
}

static const struct end *look(void) {
  static uint8_t bytes[16384];
  static struct end end;
  memset(&end, 0, sizeof end);
  for (uint8_t bank = 0; bank < BANKS; bank += 1) {
    end.banks += sandbar_peek(node, bank, banks[bank].base, bytes, banks[bank].size);
    end.banks = sum_of(bytes, banks[bank].size, end.banks);
    read_entries(bank, &end);
  }
  for (uint8_t map = 0; map < MAPS; map += 1)
    for (uint16_t cell = 0; cell < maps[map].cells; cell += 1) {
      uint64_t word = 0;
      end.words += sandbar_word(node, map, cell, &word);
      end.words = sum_of(&word, sizeof word, end.words);
    }
  return &end;
}

/* ---- what the node's memory is made of */

/* When a block was made: by the opening, by the load of slot k (LOADING + k), for a packet. */
enum { OPENING, LOADING, SERVING = LOADING + SLOTS };

struct piece {
  uint32_t at, size;
  int made;
};

static struct piece pieces[MOST_BLOCKS];
static uint32_t piece_count;

#ifdef SOURCE
static struct module_memory module_memory;
#endif

/* The blocks of the node's heap as they are now. */
static uint32_t blocks_now(struct piece *now) {
  uint32_t count = 0;
#ifdef SOURCE
  if (!find_module_memory(node, &module_memory)) fail("the heap inside is not found");
  for (; count < module_memory.block_count; count += 1)
    now[count] = (struct piece){(uint32_t)(module_memory.blocks[count].at - arena), module_memory.blocks[count].size, 0};
#else
  for (uint32_t k = 0; k < block_count; k += 1)
    if (blocks[k].live) now[count++] = (struct piece){blocks[k].at, blocks[k].size, 0};
#endif
  return count;
}

/* Notes the blocks that are there now: those that were not there before were made then. */
static void note(int made) {
  static struct piece now[MOST_BLOCKS];
  uint32_t count = blocks_now(now);
  for (uint32_t k = 0; k < count; k += 1) {
    now[k].made = made;
    for (uint32_t old = 0; old < piece_count; old += 1)
      if (pieces[old].at == now[k].at && pieces[old].size == now[k].size) now[k].made = pieces[old].made;
  }
  memcpy(pieces, now, sizeof now);
  piece_count = count;
}

/* ---- regions: each byte of the arena has one */

enum region {
  NOBODYS, HANDLE, CONTROL, BUFFERS, OPERATIONS, IMAGE, ACCESSES, BANK, FIRST, CELLS, ENTRIES, ROOM_LEFT, PACKETS, STACKS,
  STAGINGS, SWITCHES,
  INSTANCE, OWN_STACK, CONSTANTS, HEADS, /* of the C source */
  ANY, NONE, PAIRS
};
static const char *const names[] = {"nobody's", "handle", "control", "buffers", "operations", "images", "accesses", "banks",
                                    "first_banks", "cells", "entries", "room", "packets", "stacks", "staging", "switches", "instance",
                                    "own_stack", "constants", "heads", "any", "none", "pairs"};
static uint8_t *region_of; /* of each byte of the arena */

static void mark(uint32_t at, size_t size, enum region region) { memset(region_of + at, (int)region, size); }

static bool is_of(const struct piece *piece, size_t size) { return whole(piece->size) == whole(size); }

static uint32_t journals[BANKS]; /* the place of each bank's journal */

static bool is_journal(const struct piece *piece) { return piece->size % ROOM == 0; }

/* The pages of the banks as they are now, against those before each journal: a write changes one block of a page's size, and
 * one that has the entries of a journal. */
static void mark_pages(void) {
  uint8_t *before = memory(ARENA, false);
  for (uint8_t bank = 0; bank < BANKS; bank += 1)
    for (uint32_t at = 0; at < banks[bank].size; at += PAGE) {
      struct packet packet = {.port = 0, .end = SANDBAR_EOP};
      const uint8_t data[1] = {1};
      memcpy(before, arena, ARENA);
      put(&packet, 0x20, 0x67, 0, (struct asked){WRITE, bank, banks[bank].base + at, 1}, data);
      struct answer answer = serve(&packet);
      if (!is_done(&answer)) fail("a page of a fresh node cannot be written");
      for (uint32_t k = 0; k < piece_count; k += 1) {
        if (memcmp(before + pieces[k].at, arena + pieces[k].at, pieces[k].size) == 0) continue;
        if (is_of(&pieces[k], PAGE)) mark(pieces[k].at, PAGE, BANK);
        if (is_journal(&pieces[k])) journals[bank] = pieces[k].at;
      }
    }
  munmap(before, ARENA);
}

/* A journal: the entries that it has, and its room for others. */
static void mark_journal(const struct piece *piece) {
  for (uint8_t bank = 0; bank < BANKS; bank += 1) {
    sandbar_journal journal;
    if (sandbar_journal_of(node, bank, &journal) != SANDBAR_OK) fail("no journal");
    uint32_t used = piece->size / ROOM * (uint32_t)journal.entries;
    if (journals[bank] == piece->at) mark(piece->at, used, ENTRIES), mark(piece->at + used, piece->size - used, ROOM_LEFT);
  }
}

/* What was taken at the opening, except what is found by its bytes. */
static void mark_opened(const struct piece *piece) {
  if (region_of[piece->at] == BANK) return;
  mark(piece->at, piece->size, is_of(piece, STAGING) ? STAGINGS : is_of(piece, PAGE) ? FIRST : CONTROL);
  if (is_journal(piece)) mark_journal(piece);
}

static void mark_program(const struct piece *piece, uint32_t slots) {
  enum region region = CONTROL;
  if (is_of(piece, 16 * slots)) region = OPERATIONS;
  if (is_of(piece, 32 * slots)) region = IMAGE;
  if (is_of(piece, 2 * slots)) region = ACCESSES;
  mark(piece->at, piece->size, region);
}

/* Marks what begins so many bytes before each place of the control that has these bytes, and gives how many there are. */
static uint32_t mark_bytes(const void *bytes, size_t length, uint32_t before, size_t size, enum region region) {
  uint32_t found = 0;
  for (uint32_t at = 0; at + length <= ARENA; at += 1) {
    if (region_of[at] != CONTROL || memcmp(arena + at, bytes, length) != 0) continue;
    mark(at - before, size, region);
    found += 1;
  }
  return found;
}

static bool is_in(uint32_t at, enum region region) {
  return region == ANY ? region_of[at] != NOBODYS : region_of[at] == region;
}

static uint32_t bytes_of(enum region region) {
  uint32_t count = 0;
  for (uint32_t at = 0; at < ARENA; at += 1) count += is_in(at, region);
  return count;
}

/* What switches scrubs, if there are scrubs: the marks of the slots, and how many packets there are to each, with complements. */
static void mark_switches(void) {
  const uint32_t open = 0x5A3C96E1u, counts[4] = {each, each, ~each, ~each};
  if (each == 0) return;
  if (mark_bytes(&open, sizeof open, 0, sizeof open, SWITCHES) != SLOTS) fail("the marks of the slots are not found");
  if (each == 1 && mark_bytes(counts, sizeof counts, 0, sizeof counts, SWITCHES) != 1) fail("the counts of scrubs are not found");
}

/* The cells by their words and the complements of these, the stacks by the table that the program of slot 1 leaves at their
 * ends, and the buffers by what was last in them. */
static void mark_found(void) {
  static const uint8_t table[4] = {0x68, 0x69, 0x6A, 0x6B};
  for (uint8_t map = 0; map < MAPS; map += 1) {
    uint64_t words[256], kept[256];
    for (uint16_t cell = 0; cell < maps[map].cells; cell += 1) {
      if (sandbar_word(node, map, cell, &words[cell]) != SANDBAR_OK) fail("no cell");
      kept[cell] = ~words[cell];
    }
    size_t size = 8 * (size_t)maps[map].cells;
    if (mark_bytes(words, size, 0, size, CELLS) != 1) fail("the cells of map %u are not found", map);
    if (mark_bytes(kept, size, 0, size, CELLS) != 1) fail("the complements of map %u are not found", map);
  }
  if (mark_bytes(table, sizeof table, STACK - sizeof table, STACK, STACKS) != PORTS) fail("the stacks are not found");
  if (mark_bytes(reply, last_reply, 0, SANDBAR_MAX_REPLY, BUFFERS) == 0) fail("the buffer of a reply is not found");
  mark_switches();
#ifdef SOURCE
  if (mark_bytes(packets[BEFORE - 1].bytes, packets[BEFORE - 1].length, 0, SANDBAR_MAX_PACKET, BUFFERS) == 0) fail("no buffer");
#endif
}

#ifdef SOURCE
static void mark_part(const struct part *part, enum region region) {
  mark((uint32_t)(part->at - arena), part->size, region);
}

/* What the C source has beside the blocks of the node. */
static void mark_module(void) {
  mark_part(&module_memory.instance, INSTANCE);
  mark_part(&module_memory.own_stack, OWN_STACK);
  mark_part(&module_memory.constants, CONSTANTS);
  for (uint32_t k = 0; k < module_memory.head_count; k += 1) mark((uint32_t)(module_memory.heads[k] - arena), 16, HEADS);
}
#endif

/* All regions, of a node that served. What is found has to be as large as it is known to be. */
static void mark_all(void) {
  uint32_t slots = 0, pages = 0;
  mark(0, sizeof *node, HANDLE);
  for (uint32_t k = 0; k < piece_count; k += 1)
    if (pieces[k].made == OPENING) mark_opened(&pieces[k]);
    else if (pieces[k].made == SERVING) mark(pieces[k].at, pieces[k].size, PACKETS);
    else mark_program(&pieces[k], slots_of(&images[pieces[k].made - LOADING]));
  mark_found();
#ifdef SOURCE
  mark_module();
#endif
  for (int slot = 0; slot < SLOTS; slot += 1) slots += slots_of(&images[slot]);
  for (int bank = 0; bank < BANKS; bank += 1) pages += banks[bank].size;
  if (bytes_of(OPERATIONS) != 16 * slots || bytes_of(IMAGE) != 32 * slots) fail("the programs are not found");
  if (bytes_of(ACCESSES) < 2 * slots || bytes_of(ACCESSES) > 2 * slots + 16 * SLOTS) fail("the accesses are not found");
  if (bytes_of(BANK) != pages || bytes_of(FIRST) != pages) fail("the banks are not found");
  if (bytes_of(STAGINGS) != PORTS * STAGING || bytes_of(ENTRIES) == 0) fail("what is staged or the journals are not found");
}

/* ---- the run without a flip */

static struct answer *wanted; /* of the packets AFTER */
static struct end *wanted_end;
static uint32_t passed[QUOTAS];

enum { RIGHT, DENIED_DONE, QUOTA_PASSED };

/* Counts what a quota let pass, and gives what no program should have let pass. */
static int wrong_of(const struct packet *packet, const struct answer *answer, uint32_t counts[QUOTAS]) {
  if (is_done(answer) && !packet->permitted) return DENIED_DONE;
  bool is_yes = answer->code == SANDBAR_OK && answer->served.kind == SANDBAR_JUDGED && answer->served.verdict == 0;
  if (packet->quota == 0 || !is_yes) return RIGHT;
  counts[packet->quota] += 1;
  return counts[packet->quota] > limits[packet->quota] ? QUOTA_PASSED : RIGHT;
}

/* Opens the node, loads its programs and serves the packets BEFORE. */
static void begin(void) {
  static const uint8_t yes[] = IMAGE_OF(0);
  sandbar_why why;
  uint32_t code = sandbar_open(node, 0xFE, PORTS, banks, BANKS, maps, MAPS, yes, sizeof yes, &why);
  if (code != SANDBAR_OK) fail("the node is not opened: %u", code);
  if (each != 0 && sandbar_scrub_each(node, each) != SANDBAR_OK) fail("nothing is scrubbed");
  note(OPENING);
  mark_pages();
  note(SERVING);
  for (uint8_t slot = 0; slot < SLOTS; slot += 1) {
    struct packet two[2];
    put_load(two, slot, slot);
    struct answer staged = serve(&two[0]), loaded = serve(&two[1]);
    if (!is_done(&staged) || !is_done(&loaded)) fail("the program of slot %u is not loaded", slot);
    note(LOADING + slot);
  }
  for (uint32_t k = 0; k < BEFORE; k += 1) {
    struct answer answer = serve(&packets[k]);
    if (wrong_of(&packets[k], &answer, passed) != RIGHT) fail("packet %u is not to be done", k);
  }
  note(SERVING);
}

/* The rest of it, in a process of its own. */
static void go_on(void) {
  uint32_t counts[QUOTAS], done = 0;
  memcpy(counts, passed, sizeof counts);
  for (uint32_t k = 0; k < AFTER; k += 1) {
    wanted[k] = serve(&packets[BEFORE + k]);
    done += is_done(&wanted[k]);
    if (wrong_of(&packets[BEFORE + k], &wanted[k], counts) != RIGHT) fail("packet %u is not to be done", BEFORE + k);
  }
  *wanted_end = *look();
  if (is_spilled() || freed_twice) fail("a byte is written that is nobody's");
  for (int quota = 1; quota < QUOTAS; quota += 1)
    if (counts[quota] != limits[quota]) fail("quota %d is not drawn to its end: %u", quota, counts[quota]);
  if (done < AFTER / 4 || done > AFTER * 3 / 4) fail("of %d packets %u are done", AFTER, done);
}

/* ---- a trial */

enum { IN_PACKETS, IN_LOOKING, IN_CLOSING, ENDED };
static const char *const moments[] = {"packets", "looking", "closing", "ended"};

/* What a trial leaves, as it went on: its own process may be gone. */
struct seen {
  volatile int moment, signal;
  volatile bool wrote, denied, over_quota, spilled, memory, words, entries, reported, mended, closing;
  volatile uint32_t first; /* the first packet whose answer is another; AFTER: none */
  volatile bool refused;   /* that answer refuses */
};
static struct seen *seen;

static void on_signal(int signal, siginfo_t *info, void *context) {
  (void)info;
  seen->signal = signal;
#if defined(__x86_64__)
  seen->wrote = (((ucontext_t *)context)->uc_mcontext.gregs[REG_ERR] & 2) != 0;
#else
  (void)context;
#endif
  _exit(1);
}

static void catch_signals(void) {
  static const int signals[] = {SIGSEGV, SIGBUS, SIGILL, SIGTRAP, SIGABRT, SIGFPE, SIGSYS, SIGVTALRM};
  const stack_t other = {.ss_sp = memory(65536, false), .ss_size = 65536};
  const struct sigaction action = {.sa_sigaction = on_signal, .sa_flags = SA_SIGINFO | SA_ONSTACK};
  sigaltstack(&other, NULL);
  for (size_t k = 0; k < sizeof signals / sizeof *signals; k += 1) sigaction(signals[k], &action, NULL);
}

/* From now on as much time as so many packets may take. */
static void begin_patience(suseconds_t packets_of_it) {
  const struct itimerval time = {{0, 0}, {0, packets_of_it * PATIENCE}};
  setitimer(ITIMER_VIRTUAL, &time, NULL);
}

static void compare(const struct packet *packet, uint32_t k, const struct answer *answer, uint32_t counts[QUOTAS]) {
  int wrong = wrong_of(packet, answer, counts);
  if (wrong == DENIED_DONE) seen->denied = true;
  if (wrong == QUOTA_PASSED) seen->over_quota = true;
  if (answer->spilled) seen->spilled = true;
  if (seen->first < AFTER || memcmp(answer, &wanted[k], sizeof *answer) == 0) return;
  seen->first = k;
  seen->refused = answer->code != SANDBAR_OK || (is_done(&wanted[k]) && !is_done(answer));
}

/* The second flip of two: where, unless there is none, and which bit. It comes so many packets after the first. */
enum { LATER = 20 };
static uint32_t later, later_bit;

/* What comes after the flip of a bit. */
static void go_wrong(void) {
  uint32_t counts[QUOTAS];
  memcpy(counts, passed, sizeof counts);
  for (uint32_t k = 0; k < AFTER; k += 1) {
    if (k == LATER && later != 0) arena[later] ^= (uint8_t)(1u << later_bit);
    begin_patience(1);
    struct answer answer = serve(&packets[BEFORE + k]);
    compare(&packets[BEFORE + k], k, &answer, counts);
  }
  seen->moment = IN_LOOKING;
  begin_patience(5);
  const struct end *end = look();
  seen->memory = end->banks != wanted_end->banks;
  seen->words = end->words != wanted_end->words;
  seen->entries = are_other_entries(end, wanted_end);
  seen->reported = is_reported(end);
  seen->mended = end->loaded != wanted_end->loaded;
  if (is_spilled()) seen->spilled = true;
  seen->moment = IN_CLOSING;
  if (sandbar_close(node) != SANDBAR_OK || freed_twice) seen->closing = true;
  for (uint32_t k = 0; k < block_count; k += 1)
    if (blocks[k].live) seen->closing = true;
  seen->moment = ENDED;
}

/* What became of a trial: the first of these that holds. */
static const char *class_of(void) {
  bool ended = seen->moment == ENDED, in_closing = seen->moment == IN_CLOSING;
  bool is_access = seen->signal == SIGSEGV || seen->signal == SIGBUS;
  if (seen->denied) return "denied";
  if (seen->over_quota) return "quota";
  if (seen->spilled || (is_access && seen->wrote && !in_closing)) return "wild_write";
  if (is_access && !in_closing) return "wild_read";
  if (seen->signal == SIGVTALRM) return "hang";
  if (!ended && !in_closing) return "stopped";
  if (seen->first < AFTER) return seen->refused ? "refused" : "answer";
  if (seen->memory || seen->words) return "memory";
  if (seen->entries) return "entry";
  if (seen->reported) return "reported";
  if (in_closing || seen->closing) return "closing";
  return seen->mended ? "mended" : "nothing";
}

/* Flips a bit of the byte at a place, unless nothing is to flip: what comes then is in `seen`. */
static void flip_at(bool flips, uint32_t at, uint32_t bit) {
  memset(seen, 0, sizeof *seen);
  seen->first = AFTER;
  fflush(NULL);
  pid_t child = fork();
  if (child == 0) {
    catch_signals();
    if (flips) arena[at] ^= (uint8_t)(1u << bit);
    go_wrong();
    _exit(0);
  }
  int status;
  if (child < 0 || waitpid(child, &status, 0) != child) fail("no process");
  if (WIFSIGNALED(status)) seen->signal = WTERMSIG(status);
}

static void trial(bool flips, uint32_t at) {
  uint32_t bit = any(8);
  flip_at(flips, at, bit);
  const char *name = names[flips ? region_of[at] : NONE];
  printf("%s %u %u %s %u %s\n", name, at, bit, class_of(), seen->first, moments[seen->moment]);
}

/* A node that served the packets BEFORE, and its regions. */
static void prepare(const char *path) {
  packets = memory((BEFORE + AFTER) * sizeof *packets, false);
  wanted = memory(AFTER * sizeof *wanted, true);
  wanted_end = memory(sizeof *wanted_end, true);
  seen = memory(sizeof *seen, true);
  region_of = memory(ARENA, false);
  reply = (uint8_t *)memory(3 * PAGE, false) + 2 * PAGE - SANDBAR_MAX_REPLY;
  mprotect(reply + SANDBAR_MAX_REPLY, PAGE, PROT_NONE);
  read_images(path);
  state = 1;
  for (uint32_t k = 0; k < BEFORE + AFTER; k += 1) draw(&packets[k], k);
  packets[BEFORE - 1] = (struct packet){.port = 0, .end = SANDBAR_EOP};
  put(&packets[BEFORE - 1], 0x20, 0x67, BEFORE - 1, (struct asked){READ, 0, 0xA0002000u, 32}, NULL);
  judge(&packets[BEFORE - 1]);
  put_load(&packets[BEFORE + AFTER * 3 / 4], 1, 0xFFF0); /* the program of slot 1 once more */
  open_arena();
  begin();
  mprotect(packets, (BEFORE + AFTER) * sizeof *packets, PROT_READ);
  mark_all();
}

static void run_unflipped(void) {
  int status;
  pid_t child = fork();
  if (child == 0) {
    go_on();
    _exit(0);
  }
  if (child < 0 || waitpid(child, &status, 0) != child || status != 0) fail("the run without a flip");
}

/* ---- scrubs of what changed */

static const uint8_t yes_image[] = IMAGE_OF(0);

static void check(bool holds, const char *what) {
  if (!holds) fail("scrubs: %s", what);
}

/* Which entries sandbar_entry_at calls damaged, as a scrub of the journals reports them. */
static sandbar_scrubbed damaged_now(void) {
  static uint8_t packet[SANDBAR_MAX_PACKET];
  sandbar_scrubbed told = {0};
  for (uint8_t bank = 0; bank < BANKS; bank += 1) {
    sandbar_journal journal;
    sandbar_entry entry;
    uint32_t k = 0;
    if (sandbar_journal_of(node, bank, &journal) != SANDBAR_OK) fail("no journal");
    while (k < journal.entries && sandbar_entry_at(node, bank, k, packet, sizeof packet, &entry) != SANDBAR_DAMAGED) k += 1;
    if (k == journal.entries) continue;
    if (told.journals == 0) told.first = k;
    told.journals |= (uint8_t)(1u << bank);
  }
  return told;
}

/* A bit of each byte of the packets that the journals keep flips, and back: a scrub reports what sandbar_entry_at reports. */
static void damage_packets(void) {
  uint32_t reported = 0;
  for (uint32_t at = 0; at < ARENA; at += 1) {
    if (region_of[at] != PACKETS) continue;
    sandbar_scrubbed told;
    arena[at] ^= 1;
    check(sandbar_scrub(node, SANDBAR_JOURNALS, yes_image, 0, &told) == SANDBAR_OK, "journals");
    sandbar_scrubbed wanted_told = damaged_now();
    check(told.journals == wanted_told.journals && told.first == wanted_told.first, "another entry is damaged");
    check(told.mended == 0 && told.withdrawn == 0 && told.sizes == 0, "what is not scrubbed is reported");
    reported += told.journals != 0;
    arena[at] ^= 1;
  }
  check(reported > 0, "no entry is damaged");
}

/* A bit of the first address of each bank flips, and back: the bank's own, and that of the node's windows. */
static void damage_sizes(void) {
  uint32_t reported = 0;
  for (uint32_t at = 0; at + 4 <= ARENA; at += 1)
    for (uint8_t bank = 0; bank < BANKS; bank += 1) {
      sandbar_scrubbed told;
      if (region_of[at] != CONTROL || memcmp(arena + at, &banks[bank].base, 4) != 0) continue;
      arena[at] ^= 1;
      check(sandbar_scrub(node, SANDBAR_SIZES, yes_image, 0, &told) == SANDBAR_OK, "sizes");
      check(told.mended == 0 && told.withdrawn == 0 && told.journals == 0, "what is not scrubbed is reported");
      reported += told.sizes;
      arena[at] ^= 1;
    }
  check(reported >= 2 * BANKS, "no other size");
}

/* How many entries the journals have. */
static uint64_t entries_now(void) {
  uint64_t count = 0;
  for (uint8_t bank = 0; bank < BANKS; bank += 1) {
    sandbar_journal journal;
    if (sandbar_journal_of(node, bank, &journal) != SANDBAR_OK) fail("no journal");
    count += journal.entries;
  }
  return count;
}

/* Flips a bit of each program's operations, or of each image: there one of each instruction, which has 32 bytes, since some do not use
 * the word in which it is. */
static void flip_each(enum region region) {
  for (uint32_t k = 0; k < piece_count; k += 1) {
    if (region_of[pieces[k].at] != region) continue;
    uint32_t end = region == IMAGE ? pieces[k].size : 32;
    for (uint32_t at = region == IMAGE ? 16 : 1; at < end; at += 32) arena[pieces[k].at + at] ^= 1;
  }
}

/* All four programs change, and there is memory for packets alone: each is mended in its own memory. Then their images change, too: each
 * slot is withdrawn, and nothing that comes is judged. The image that is lent mends the program whose sum it has, if there is memory.
 * One that has another sum is the program of slot 3. Once the images are as they were, the next scrub mends the other slots, and each
 * slot can be loaded. */
static void withdraw(void) {
  sandbar_scrubbed told;
  uint64_t before = entries_now();
  flip_each(OPERATIONS);
  most = 1100;
  check(sandbar_scrub(node, SANDBAR_PROGRAMS, yes_image, 0, &told) == SANDBAR_OK, "the scrub");
  check(told.mended == 15 && told.withdrawn == 0 && told.restored == 0, "not all slots are mended without memory");
  flip_each(OPERATIONS);
  flip_each(IMAGE);
  check(sandbar_scrub(node, SANDBAR_PROGRAMS, yes_image, 0, &told) == SANDBAR_OK, "the scrub without an image");
  check(told.mended == 0 && told.withdrawn == 15 && told.restored == 0, "not all slots are withdrawn");
  check(sandbar_scrub(node, SANDBAR_PROGRAMS, images[1].bytes, images[1].length, &told) == SANDBAR_NO_MEMORY, "the short scrub");
  check(told.mended == 0 && told.withdrawn == 15 && told.restored == 0, "a slot is mended without memory");
  for (uint32_t k = 0; k < AFTER; k += 1) {
    struct answer answer = serve(&packets[BEFORE + k]);
    if (packets[BEFORE + k].length > most) continue;
    check(answer.code == SANDBAR_OK && answer.served.kind != SANDBAR_JUDGED, "a command is judged");
    check(answer.served.verdict == 0 && answer.served.generation == 0, "a command has a verdict");
  }
  check(entries_now() == before, "a journal has one more entry");
  most = SIZE_MAX;
  check(sandbar_scrub(node, SANDBAR_PROGRAMS, yes_image, sizeof yes_image, &told) == SANDBAR_OK, "the second scrub");
  check(told.mended == 0 && told.withdrawn == 15 && told.restored == 1, "slot 3 is not restored");
  check(sandbar_scrub(node, SANDBAR_PROGRAMS, images[1].bytes, images[1].length, &told) == SANDBAR_OK, "the scrub with an image");
  check(told.mended == 2 && told.withdrawn == 5 && told.restored == 0, "slot 1 is not mended by the image that is lent");
  flip_each(IMAGE);
  check(sandbar_scrub(node, SANDBAR_PROGRAMS, yes_image, 0, &told) == SANDBAR_OK, "the scrub with whole images");
  check(told.mended == 5 && told.withdrawn == 0 && told.restored == 0, "not all slots are mended");
  for (uint8_t slot = 0; slot < SLOTS; slot += 1) {
    struct packet two[2];
    put_load(two, slot, slot);
    struct answer staged = serve(&two[0]), loaded = serve(&two[1]);
    check(is_done(&staged) && is_done(&loaded), "a load");
  }
  check(sandbar_scrub(node, SANDBAR_PROGRAMS, yes_image, 0, &told) == SANDBAR_OK, "the last scrub");
  check(told.mended == 0 && told.withdrawn == 0 && told.restored == 0, "a slot is withdrawn after its load");
  struct answer answer = serve(&packets[BEFORE - 1]);
  check(is_done(&answer), "the last read");
  check(sandbar_close(node) == SANDBAR_OK && !freed_twice, "the closing");
}

/* ---- words */

/* What a word has: an address in the arena, by the region that is there, or a number. */
static void print_value(uint64_t value) {
  uint64_t at = value - (uint64_t)(uintptr_t)arena;
  if (at < ARENA && region_of[at] != NOBODYS) printf("%s", names[region_of[at]]);
  else if (at < ARENA) printf("nobody's");
  else printf("%llx", (unsigned long long)value);
}

/* The letter of a class in the lines of words. */
static char letter_of(const char *name) {
  static const char *const letters[] = {"Ddenied", "Qquota", "Wwild_write", "Rwild_read", "Hhang", "Sstopped", "rrefused", "aanswer",
                                        "mmemory", "eentry", "preported", "cclosing", "Mmended", ".nothing"};
  for (size_t k = 0; k < sizeof letters / sizeof *letters; k += 1)
    if (strcmp(letters[k] + 1, name) == 0) return letters[k][0];
  return '?';
}

/* Each bit of each word of a block flips, or each of so many, if the block has control. */
static void print_block(uint32_t at, uint32_t size, uint32_t number, uint32_t step) {
  for (uint32_t word = at; word + 8 <= at + size; word += 8) {
    uint64_t value;
    char classes[65] = {0};
    if (region_of[word] != CONTROL && region_of[word] != HANDLE) continue;
    memcpy(&value, arena + word, sizeof value);
    for (uint32_t bit = 0; bit < 64; bit += step) {
      flip_at(true, word + bit / 8, bit % 8);
      classes[bit / step] = letter_of(class_of());
    }
    printf("%s %u %u %u ", names[region_of[word]], number, size, (word - at) / 8);
    print_value(value);
    printf(" %s\n", classes);
    fflush(stdout);
  }
}

static void print_words(uint32_t step) {
  run_unflipped();
  print_block(0, sizeof *node, 0, step);
  for (uint32_t k = 0; k < piece_count; k += 1) print_block(pieces[k].at, pieces[k].size, k + 1, step);
}

int main(int count, char **words) {
  bool is_words = count == 5 && strcmp(words[2], "words") == 0;
  if (count < 2 || count == 4 || count > 6)
    fail("IMAGES, or IMAGES REGION TRIALS SEED [EACH], or IMAGES scrubs, or IMAGES words EACH STEP");
  if (count == 6 || is_words) each = (uint32_t)strtoul(words[is_words ? 3 : 5], NULL, 10);
  prepare(words[1]);
  if (count == 2) {
    for (int region = HANDLE; region < ANY; region += 1)
      if (bytes_of((enum region)region) != 0) printf("%s %u\n", names[region], bytes_of((enum region)region));
    return 0;
  }
  if (count == 3) {
    if (strcmp(words[2], "scrubs") != 0) fail("no %s", words[2]);
    damage_packets();
    damage_sizes();
    withdraw();
    return 0;
  }
  if (is_words) {
    uint32_t step = (uint32_t)strtoul(words[4], NULL, 10);
    if (step == 0 || step > 64) fail("a step of 1 to 64");
    print_words(step);
    return 0;
  }
  enum region region = HANDLE;
  while (region <= PAIRS && strcmp(names[region], words[2]) != 0) region += 1;
  if (region > PAIRS) fail("no region %s", words[2]);
  static uint32_t places[ARENA], others[ARENA];
  uint32_t bytes = 0, other_bytes = 0;
  for (uint32_t at = 0; at < ARENA; at += 1) {
    if (is_in(at, region == PAIRS ? SWITCHES : region)) places[bytes++] = at;
    if (region == PAIRS && region_of[at] == OPERATIONS) others[other_bytes++] = at;
  }
  if (bytes == 0 && region != NONE) fail("%s has no bytes", words[2]);
  run_unflipped();
  state = strtoul(words[4], NULL, 10);
  for (unsigned long trials = strtoul(words[3], NULL, 10); trials > 0; trials -= 1) {
    if (other_bytes != 0) later = others[any(other_bytes)], later_bit = any(8);
    trial(bytes != 0, bytes != 0 ? places[any(bytes)] : 0);
  }
  return 0;
}
