/* Random calls, many with several faults at once: order [CALLS] prints one sum of all codes, the same over each library, and how often
 * each code came. What they ask for fits into 48 pages. */
#include "packets.h"

#include <stdbool.h>
#include <stdio.h>
#include <stdlib.h>

static uint8_t bytes[70000], reply[SANDBAR_MAX_REPLY];
static uint64_t state = 1, sum;
static unsigned long codes[16];

static uint32_t any(uint32_t below) {
  state ^= state << 13, state ^= state >> 7, state ^= state << 17;
  return (uint32_t)(state >> 33) % below;
}

/* Mostly the good number, else one below the other. */
static uint32_t either(uint32_t good, uint32_t below) {
  uint32_t bad = any(below);
  return any(3) != 0 ? good : bad;
}

/* Mostly the good number, in one of so many not: then the bad one or 0. */
static uint32_t mostly(uint32_t good, uint32_t bad, uint32_t of) {
  uint32_t one = any(of), other = any(2);
  return one != 0 ? good : other * bad;
}

static void answers(uint32_t code) {
  sum = (sum ^ code) * 1099511628211u;
  codes[code % 16] += 1;
}

static uint32_t opens(sandbar_node *node, bool only_verifies) {
  static const uint8_t yes[] = IMAGE_OF(0);
  sandbar_map maps[9];
  sandbar_bank banks[9];
  sandbar_why why;
  for (uint32_t k = 0; k < 9; k += 1) {
    maps[k].cells = (uint16_t)mostly(4, 257, 30);
    maps[k].peak = (uint16_t)mostly(1, 2, 30);
    banks[k].base = k << 28;
    banks[k].size = mostly(256, 1u << 21, 30);
    banks[k].room = mostly(16, 65537, 30);
  }
  memcpy(bytes, yes, sizeof yes);
  uint32_t at = any(4 * sizeof yes), length = either(sizeof yes, 60000), map_count = either(2, 12), bank_count = either(2, 12);
  if (at < sizeof yes) bytes[at] ^= 4;
  uint8_t ports = (uint8_t)either(2, 40);
  if (only_verifies) return sandbar_verify(maps, map_count < 9 ? map_count : 9, bytes, length, &why);
  return sandbar_open(node, 0xFE, ports, banks, bank_count < 9 ? bank_count : 9, maps, map_count < 9 ? map_count : 9, bytes, length, &why);
}

static uint32_t serves(sandbar_node *node, bool is_good) {
  sandbar_served served;
  uint8_t bank = (uint8_t)any(3), port = (uint8_t)either(0, 256), end = (uint8_t)either(0, 256);
  uint32_t address = any(300), some = any(32), room = either(SANDBAR_MAX_REPLY, SANDBAR_MAX_REPLY), length = either(16, 60000);
  size_t size = put_read(bytes, 1, bank, address, some);
  if (is_good) return sandbar_serve(node, 0, bytes, size, SANDBAR_EOP, reply, sizeof reply, &served);
  return sandbar_serve(node, port, bytes, length, end, reply, room, &served);
}

static uint32_t one(sandbar_node *node) {
  sandbar_journal journal;
  sandbar_entry entry;
  uint64_t word;
  uint32_t good_bank = any(2), good_place = any(200), good_room = 1 + any(40), good_length = any(100);
  uint8_t bank = (uint8_t)either(good_bank, 256), map = (uint8_t)any(4);
  uint32_t address = ((uint32_t)bank << 28) + either(good_place, 70000), room = mostly(good_room, 65537, 4), which = any(3), kind = any(11);
  uint32_t length = either(good_length, sizeof bytes), must_close = any(8);
  switch (kind) {
  case 0: return must_close == 0 ? sandbar_close(node) : sandbar_journal_of(node, bank, &journal);
  case 1: return opens(node, true);
  case 2:
  case 3: return opens(node, false);
  case 4: return sandbar_entry_at(node, bank, which, bytes, length, &entry);
  case 5: return sandbar_rotate(node, bank, room);
  case 6: return sandbar_peek(node, bank, address, bytes, length);
  case 7: return sandbar_poke(node, bank, address, bytes, length, room);
  case 8: return sandbar_word(node, map, (uint16_t)which, &word);
  default: return serves(node, kind == 9);
  }
}

int main(int count, char **words) {
  unsigned long calls = count > 1 ? strtoul(words[1], NULL, 10) : 2000;
  sandbar_node node = {0};
  for (unsigned long k = 0; k < calls; k += 1) answers(one(&node));
  answers(sandbar_close(&node));
  printf("%08lx%08lx:", (unsigned long)(sum >> 32), (unsigned long)(sum & 0xFFFFFFFF));
  for (unsigned k = 0; k < 16; k += 1)
    if (codes[k] != 0) printf(" %lu of %u", codes[k], k);
  printf("\n");
  return 0;
}
