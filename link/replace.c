/* A policy that is replaced in flight: the ground tests an image, stages it by writes, and loads it by a control write.
   The node judges by the old program until the load succeeds, and by the new one from then on. */
#include "packets.h"

#include <inttypes.h>
#include <stdio.h>

static const uint8_t yes[] = IMAGE_OF(0), locked[] = IMAGE_OF(10);
static uint8_t packet[SANDBAR_MAX_PACKET], reply[SANDBAR_MAX_REPLY];
static sandbar_node node;

static sandbar_served serve(size_t length) {
  sandbar_served served = {0};
  if (sandbar_serve(&node, 0, packet, length, SANDBAR_EOP, reply, sizeof reply, &served) != SANDBAR_OK) served.status = 255;
  return served;
}

/* Stages an image and loads it into a slot: 0 judges reads of banks, 1 writes, 2 read-modify-writes, 3 the boot window. */
static int load(const uint8_t *image, uint16_t length, uint8_t slot) {
  const uint8_t control[4] = {slot, 0, (uint8_t)(length >> 8), (uint8_t)length};
  if (serve(put_write(packet, 1, 0xFF, 0, image, length)).status != 0) return 0;
  return serve(put_write(packet, 2, 0xFF, 0x10000, control, 4)).status == 0;
}

static sandbar_served write_byte(void) {
  const uint8_t byte = 0x55;
  return serve(put_write(packet, 3, 0, 0xA0000000u, &byte, 1));
}

int main(void) {
  const sandbar_bank bank = {0xA0000000u, 65536, 1024};
  const sandbar_map maps[1] = {{4, 0}};
  sandbar_why why;

  /* on the ground: the same verifier, for the maps of the node, as `rmapctl verify` */
  uint8_t wrong[sizeof yes];
  memcpy(wrong, yes, sizeof yes);
  wrong[8] = 1; /* a budget of 1, one step too few */
  uint32_t code = sandbar_verify(maps, 1, wrong, sizeof wrong, &why);
  printf("verify %" PRIu32 ": V%u at slot %u\n", code, why.code, why.slot);
  if (sandbar_verify(maps, 1, locked, sizeof locked, &why) != SANDBAR_OK) return 1;

  /* in flight */
  if (sandbar_open(&node, 0xFE, 1, &bank, 1, maps, 1, yes, sizeof yes, &why) != SANDBAR_OK) return 1;
  printf("before: status %u\n", write_byte().status);
  printf("a load of the wrong image: %s\n", load(wrong, sizeof wrong, 1) ? "done" : "refused");
  printf("still: status %u\n", write_byte().status);
  printf("a load of the locked one: %s\n", load(locked, sizeof locked, 1) ? "done" : "refused");
  sandbar_served after = write_byte();
  printf("after: status %u by generation %" PRIu32 "\n", after.status, after.generation);
  sandbar_close(&node);
  return after.status == 10 ? 0 : 1;
}
