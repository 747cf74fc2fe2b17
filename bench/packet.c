/* How long a packet takes: packet rN|wN COUNT ROUNDS. COUNT packets, at most 4,096, that read or write N bytes, then the journal is
   turned over, ROUNDS times; prints the nanoseconds of a packet in the best round. Built over the archive of `single_node_c`:
   cc -O2 -Iinclude -Ilink bench/packet.c crates/single_node_c/out/libsingle_node_c.a $(dirname $(rt doc))/c/liblibc_c.a */
#include "packets.h"

#include <stdio.h>
#include <stdlib.h>
#include <time.h>

static const uint8_t yes[] = IMAGE_OF(0);

static long nanoseconds(void) {
  struct timespec now;
  clock_gettime(CLOCK_MONOTONIC, &now);
  return now.tv_sec * 1000000000L + now.tv_nsec;
}

int main(int words, char **word) {
  if (words != 4) return 1;
  int writes = word[1][0] == 'w';
  size_t bytes = (size_t)atol(word[1] + 1);
  long count = atol(word[2]), rounds = atol(word[3]);
  if (bytes > 4096 || count < 1 || count > 4096) return 1;
  sandbar_node node = {0};
  sandbar_bank bank = {0xA0000000u, 65536, 4096};
  sandbar_map map = {1, 0};
  sandbar_why why;
  sandbar_served served;
  static uint8_t reply[SANDBAR_MAX_REPLY], data[4096], packet[4200];
  for (int k = 0; k < 4096; k += 1) data[k] = (uint8_t)(k * 31 % 251);
  if (sandbar_open(&node, 0xFE, 1, &bank, 1, &map, 1, yes, sizeof yes, &why) != SANDBAR_OK) return 2;
  size_t length = writes ? put_write(packet, 1, 0, 0xA0000000u, data, bytes) : put_read(packet, 1, 0, 0xA0000000u, (uint32_t)bytes);
  long best = -1;
  for (long round = 0; round < rounds; round += 1) {
    long begun = nanoseconds();
    for (long k = 0; k < count; k += 1) {
      if (sandbar_serve(&node, 0, packet, length, SANDBAR_EOP, reply, sizeof reply, &served) != SANDBAR_OK) return 3;
      if (served.status != 0) return 4;
    }
    long time = nanoseconds() - begun;
    if (best < 0 || time < best) best = time;
    if (sandbar_rotate(&node, 0, 4096) != SANDBAR_OK) return 5;
  }
  printf("%.1f ns\n", (double)best / (double)count);
  return sandbar_close(&node) == SANDBAR_OK ? 0 : 6;
}
