/* How long a packet takes: bench COUNT. A write of 16 bytes and a read of 16 bytes in turn; journals are turned over. */
#include "packets.h"

#include <stdio.h>
#include <stdlib.h>
#include <time.h>

static const uint8_t yes[] = IMAGE_OF(0);

int main(int count, char **words) {
  long packets = count > 1 ? atol(words[1]) : 100000;
  sandbar_node node = {0};
  sandbar_bank bank = {0xA0000000u, 65536, 4096};
  sandbar_map map = {1, 0};
  sandbar_why why;
  sandbar_served served;
  static uint8_t reply[SANDBAR_MAX_REPLY], data[16] = {1, 2, 3}, in[2][64];
  if (sandbar_open(&node, 0xFE, 1, &bank, 1, &map, 1, yes, sizeof yes, &why) != SANDBAR_OK) return 1;
  size_t length[2] = {put_write(in[0], 1, 0, 0xA0000000u, data, 16), put_read(in[1], 2, 0, 0xA0000000u, 16)};
  unsigned long sum = 0;
  struct timespec a, b;
  clock_gettime(CLOCK_PROCESS_CPUTIME_ID, &a);
  for (long k = 0; k < packets; k += 1) {
    if (k % 4096 == 0 && sandbar_rotate(&node, 0, 4096) != SANDBAR_OK) return 2;
    if (sandbar_serve(&node, 0, in[k & 1], length[k & 1], SANDBAR_EOP, reply, sizeof reply, &served) != SANDBAR_OK) return 3;
    sum = sum * 31 + reply[served.reply_length - 1] + served.status;
  }
  clock_gettime(CLOCK_PROCESS_CPUTIME_ID, &b);
  double seconds = (double)(b.tv_sec - a.tv_sec) + (double)(b.tv_nsec - a.tv_nsec) / 1e9;
  printf("%ld packets, %.0f ns each, sum %08lx, close %u\n", packets, seconds / (double)packets * 1e9, sum & 0xFFFFFFFFul,
         (unsigned)sandbar_close(&node));
  return 0;
}
