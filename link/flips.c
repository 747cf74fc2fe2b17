/* Bits that flip in the operations and the images of a node's programs, and what scrubs make of them: with an image that is lent, and
 * with memory short. docs/TESTING.md, "Upsets". The programs are found by their bytes in a heap of this program's own. */
#include "packets.h"
#include "sandbarstove_heap.h"

#include <stdbool.h>
#include <stdio.h>
#include <stdlib.h>

/* ---- a heap, of which nothing is used twice, and which may be short */

static _Alignas(16) uint8_t arena[8u << 20];
static size_t top;
static bool is_short; /* whatever is asked for is refused */

rattle_block rattle_alloc(size_t size, size_t align) {
  static char nowhere;
  size_t whole = (size + 15) / 16 * 16;
  (void)align;
  if (is_short || whole > sizeof arena - top) return (rattle_block){false, &nowhere};
  top += whole + 16;
  return (rattle_block){true, arena + top - whole - 16};
}

rattle_block rattle_realloc(void *block, size_t kept, size_t size, size_t align) {
  rattle_block other = rattle_alloc(size, align);
  if (other.ok) memcpy(other.at, block, kept < size ? kept : size);
  return other;
}

void rattle_dealloc(void *block) { (void)block; }

/* ---- a program that denies each command to a bank, and permits all to the boot window. It loads two numbers that differ in the last
 * bit: if that flips in one of its operations, it permits everything */

#define NUMBER(last) (last), 0x2B, 0xDE, 0xC0
#define NUMBER_END 0xED, 0x5E, 0xFE, 0x5A
static const uint8_t denies[] = {
    0x42, 0x50, 0x46, 0x41, 1,    0,    10,   0,    8,    0,    0,    0,    0,    0,    0,    0,    /* 10 slots, .budget 8 */
    0x18, 0x04, 0,    0,    NUMBER(0xAD),       0,    0,    0,    0,    NUMBER_END, /* lddw r4, FIRST */
    0x18, 0x05, 0,    0,    NUMBER(0xAC),       0,    0,    0,    0,    NUMBER_END, /* lddw r5, SECOND */
    0xB7, 0x00, 0,    0,    0,    0,    0,    0,                                    /* mov r0, 0 */
    0x1D, 0x54, 3,    0,    0,    0,    0,    0,                                    /* jeq r4, r5, out */
    0x71, 0x23, 3,    0,    0,    0,    0,    0,                                    /* ldxb r3, [r2+3] */
    0x15, 0x03, 1,    0,    0xFF, 0,    0,    0,                                    /* jeq r3, 0xFF, out */
    0xB7, 0x00, 0,    0,    10,   0,    0,    0,                                    /* mov r0, 10 */
    0x95, 0x00, 0,    0,    0,    0,    0,    0,                                    /* out: exit */
};
static const uint8_t yes[] = IMAGE_OF(0);
static const uint8_t first[8] = {NUMBER(0xAD), NUMBER_END}, second[8] = {NUMBER(0xAC), NUMBER_END};

/* How far the two numbers are apart: in the list of operations, and in an image. */
enum { OF_OPERATIONS = 16, OF_IMAGE = 64 };

/* Whether a load of that register is at a place, of that number: its code, its register, zeros, the number. */
static bool is_load(const uint8_t *at, uint8_t code, uint8_t number_of_register, const uint8_t *number) {
  const uint8_t head[8] = {code, number_of_register};
  return memcmp(at, head, 8) == 0 && memcmp(at + 8, number, 8) == 0;
}

/* Flips a bit of the second number wherever both loads are so far apart, whatever that bit is now: how often. */
static unsigned flip(size_t apart, unsigned bit) {
  unsigned found = 0;
  uint8_t other[8];
  memcpy(other, second, sizeof other);
  other[bit / 8] ^= (uint8_t)(1u << bit % 8);
  for (size_t at = 0; at + apart + 16 <= top; at += 1) {
    uint8_t *load = arena + at + apart;
    if (!is_load(arena + at, arena[at], 4, first)) continue;
    if (!is_load(load, arena[at], 5, second) && !is_load(load, arena[at], 5, other)) continue;
    load[8 + bit / 8] ^= (uint8_t)(1u << bit % 8);
    found += 1;
  }
  return found;
}

/* ---- what is tried */

static unsigned checks, failures;
static sandbar_node node;
static uint8_t reply[SANDBAR_MAX_REPLY];

static void holds(bool condition, const char *what) {
  checks += 1;
  if (condition) return;
  failures += 1;
  printf("FAILED: %s\n", what);
}

static sandbar_served serve(uint8_t extended) {
  uint8_t packet[16];
  sandbar_served served = {0};
  size_t length = put_read(packet, 1, extended, extended == 0 ? 0xA0000000u : 0x10000u, extended == 0 ? 4 : 8);
  holds(sandbar_serve(&node, 0, packet, length, SANDBAR_EOP, reply, sizeof reply, &served) == SANDBAR_OK, "serve");
  return served;
}

/* The command is judged and denied, or no program judges it. */
static bool is_denied(void) {
  sandbar_served served = serve(0);
  return served.kind == SANDBAR_JUDGED && served.verdict == 10 && served.status == 10;
}

static bool is_withheld(void) {
  sandbar_served served = serve(0);
  return served.kind != SANDBAR_JUDGED && served.status == 1;
}

/* A scrub of the programs: its code, and what it tells. */
static void scrub(const uint8_t *image, size_t length, uint32_t code, uint8_t mended, uint8_t withdrawn, uint8_t restored,
                  const char *what) {
  sandbar_scrubbed told = {0};
  holds(sandbar_scrub(&node, SANDBAR_PROGRAMS, image, length, &told) == code, what);
  holds(told.mended == mended && told.withdrawn == withdrawn && told.restored == restored, what);
}

static uint32_t loaded(void) {
  sandbar_journal journal = {0};
  holds(sandbar_journal_of(&node, 0, &journal) == SANDBAR_OK, "journal");
  return journal.loaded;
}

static void open_node(void) {
  static const sandbar_bank bank = {0xA0000000u, 4096, 4096};
  static const sandbar_map none = {0, 0};
  sandbar_why why;
  memset(arena, 0, top);
  top = 0;
  node = (sandbar_node){0};
  holds(sandbar_open(&node, 0xFE, 1, &bank, 1, &none, 0, denies, sizeof denies, &why) == SANDBAR_OK, "open");
}

/* Whatever bit of a number flips in the operations, a scrub mends them in their own memory, once for all slots that share them. Each slot
 * has the next generation. */
static void mends_without_memory(void) {
  open_node();
  for (unsigned bit = 0; bit < 64; bit += 1) {
    holds(flip(OF_OPERATIONS, bit) == 1, "the slots share one program");
    is_short = true;
    scrub(denies, sizeof denies, SANDBAR_OK, 15, 0, 0, "mended in its own memory");
    scrub(denies, sizeof denies, SANDBAR_OK, 0, 0, 0, "whole");
    is_short = false;
    holds(loaded() == 4 * (bit + 1), "a generation for each slot");
    holds(is_denied(), "denied");
  }
}

/* The same before a packet. */
static void mends_before_packets(void) {
  open_node();
  holds(sandbar_scrub_each(&node, 1) == SANDBAR_OK, "scrub each");
  holds(flip(OF_OPERATIONS, 0) == 1, "one program");
  sandbar_served served = serve(0);
  holds(served.found == SANDBAR_MENDED && served.found_slot == 0 && served.verdict == 10, "mended and denied");
  holds(served.generation == 1, "the next generation");
  served = serve(0xFF);
  holds(served.found == SANDBAR_WHOLE && served.found_slot == 3 && served.generation == 4, "the other slots are mended with it");
}

/* Operations and image flip. Without an image that is lent the slots are withdrawn; with one that has the sum they are mended, if there is
 * memory; with another only the slot of the boot window is given its program. Later scrubs try again. */
static void lends(void) {
  open_node();
  for (unsigned bit = 0; bit < 64; bit += 9) {
    unsigned programs = flip(OF_OPERATIONS, bit), images = flip(OF_IMAGE, bit);
    holds(programs > 0 && programs == images, "a program has an image");
    scrub(denies, 0, SANDBAR_OK, 0, 15, 0, "withdrawn");
    holds(is_withheld(), "no program judges");
    is_short = true;
    scrub(denies, 0, SANDBAR_OK, 0, 15, 0, "of no bytes no memory is asked for");
    scrub(denies, sizeof denies, SANDBAR_NO_MEMORY, 0, 15, 0, "memory is refused");
    is_short = false;
    holds(is_withheld(), "no program judges");
    scrub(denies, sizeof denies, SANDBAR_OK, 15, 0, 0, "mended by the image that is lent");
    holds(is_denied(), "denied");
    scrub(denies, 0, SANDBAR_OK, 0, 0, 0, "whole");
    open_node();
  }
  holds(flip(OF_OPERATIONS, 0) == 1 && flip(OF_IMAGE, 0) == 1, "one program");
  scrub(yes, sizeof yes, SANDBAR_OK, 0, 15, 1, "restored");
  holds(serve(0xFF).status == 0, "the boot window is open");
  holds(is_withheld(), "no program judges");
  holds(flip(OF_IMAGE, 0) == 1, "the image is as it was");
  scrub(yes, 0, SANDBAR_OK, 7, 0, 0, "tried again");
  holds(is_denied(), "denied");
}

/* The image alone flips: no run and no scrub reads it. */
static void ignores_images(void) {
  open_node();
  holds(flip(OF_IMAGE, 0) == 1, "one image");
  scrub(denies, sizeof denies, SANDBAR_OK, 0, 0, 0, "whole");
  holds(is_denied(), "denied");
}

int main(void) {
  mends_without_memory();
  mends_before_packets();
  lends();
  ignores_images();
  printf("flips: %u checks, %u failed\n", checks, failures);
  return failures == 0 ? EXIT_SUCCESS : EXIT_FAILURE;
}
