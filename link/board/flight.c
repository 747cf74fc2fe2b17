/* A loop for flight, which docs/EMBEDDING.md shows: frames come over a link, and a node that the ground described serves them. */
#include "flight.h"
#include "node_file.h" /* rmapctl node FILE --c --table TABLE */
#include "sandbarstove_frames.h"

static sandbar_node node;
static sandbar_frames frames;
static uint8_t packet[SANDBAR_MAX_PACKET], kept[SANDBAR_MAX_PACKET], reply[SANDBAR_MAX_REPLY];

static void want(uint32_t code) {
  if (code != SANDBAR_OK) flight_reset(code); /* a handle is damaged, or what is in ROM is no node */
}

static void turn(uint8_t bank) { /* with no more room than before it asks for no memory */
  sandbar_journal journal;
  want(sandbar_journal_of(&node, bank, &journal));
  for (uint32_t place = 0; place < journal.entries; place += 1) {
    sandbar_entry entry;
    uint32_t code = sandbar_entry_at(&node, bank, place, kept, sizeof kept, &entry);
    if (code == SANDBAR_DAMAGED) flight_tell(FLIGHT_DAMAGED, bank, place);
    else want(code), flight_keep(bank, &entry, kept);
    flight_kick();
  }
  want(sandbar_rotate(&node, bank, node_banks[bank].room));
}

static void scrub(void) { /* what no packet comes to, with the image in ROM for slot 3, and the counters */
  sandbar_scrubbed told;
  uint32_t code = sandbar_scrub(&node, SANDBAR_ALL, node_image, sizeof node_image, &told);
  if (code != SANDBAR_NO_MEMORY) want(code); /* a slot that stays withdrawn is tried again by the next scrub */
  if (told.sizes == SANDBAR_SIZES_DIFFER) flight_reset(SANDBAR_DAMAGED);
  if (told.sizes == SANDBAR_COUNT_DIFFERS) want(sandbar_scrub_each(&node, 1));
  uint32_t programs = (uint32_t)told.restored << 16 | (uint32_t)told.withdrawn << 8 | told.mended;
  if (programs != 0) flight_tell(FLIGHT_PROGRAMS, programs, 0);
  for (uint8_t bank = 0; bank < NODE_BANKS; bank += 1)
    if (told.journals >> bank & 1) turn(bank);
  for (uint32_t k = 0; k < NODE_QUOTAS; k += 1) {
    uint64_t word, limit = node_quotas[k].limit;
    want(sandbar_word(&node, node_quotas[k].map, node_quotas[k].cell, &word));
    flight_tell(FLIGHT_QUOTA, k, word < limit ? limit - word : 0);
  }
}

static void serve(const sandbar_came *came) {
  sandbar_served served;
  uint8_t head[SANDBAR_FRAME_HEAD];
  uint32_t code = sandbar_serve(&node, 0, packet, came->length, came->end, reply, sizeof reply, &served);
  if (code == SANDBAR_NO_MEMORY) { /* the packet was not served: it is served when the journals gave theirs back */
    flight_tell(FLIGHT_MEMORY, 0, came->length);
    for (uint8_t bank = 0; bank < NODE_BANKS; bank += 1) turn(bank);
    code = sandbar_serve(&node, 0, packet, came->length, came->end, reply, sizeof reply, &served);
  }
  if (code == SANDBAR_NO_MEMORY) {
    flight_tell(FLIGHT_LOST, 0, came->length);
    return;
  }
  want(code);
  if (served.found > SANDBAR_WHOLE) flight_tell(FLIGHT_FOUND, served.found, served.found_slot);
  if (served.reply_length != 0) {
    sandbar_frames_head(served.reply_length, head);
    flight_put(head, sizeof head);
    flight_put(reply, served.reply_length);
  }
  if (served.place == SANDBAR_AT_BANK && served.room == 0) turn(served.extended); /* before it refuses a command */
}

_Noreturn void flight_main(void) {
  sandbar_why why;
  want(sandbar_open(&node, NODE_ADDRESS, NODE_PORTS, node_banks, NODE_BANKS, node_maps, NODE_MAPS, node_image,
                    sizeof node_image, &why));
  for (uint8_t bank = 0; bank < NODE_BANKS; bank += 1)
    want(sandbar_poke(&node, bank, node_banks[bank].base, node_contents[bank].bytes, node_contents[bank].length,
                      node_banks[bank].room));
  for (int k = 0; k < NODE_PUBLISHES; k += 1)
    want(sandbar_publish(&node, node_publishes[k].slot, node_publishes[k].image, node_publishes[k].length, &why));
  want(sandbar_scrub_each(&node, 1)); /* before each packet the program that judges it */
  want(sandbar_frames_open(&frames));
  for (uint32_t packets = 0;; flight_kick()) {
    sandbar_came came;
    uint8_t byte = flight_get();
    uint32_t code = sandbar_frames_take(&frames, &byte, 1, packet, sizeof packet, &came);
    if (code == SANDBAR_DAMAGED) { /* nothing in a frame marks the next one: only a new connection does */
      want(sandbar_frames_close(&frames));
      want(sandbar_frames_open(&frames));
      flight_link();
      continue;
    }
    want(code);
    if (came.kind != SANDBAR_PACKET) continue; /* nothing whole, a time code, or a frame for a bridge */
    serve(&came);
    if (++packets % 64 == 0) scrub();
  }
}
