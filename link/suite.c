/* A suite over the library: suite FILE. Each line of FILE has a row, a packet line and what is due, with tabs between them. It opens the
 * node of which no file says anything, serves the packets in turn, hands full journals out, and prints each row that is wrong. */
#include "packets.h"

#include <ctype.h>
#include <stdio.h>
#include <stdlib.h>

/* A line has two packets at most, as hexadecimal digits, and the name of its row. */
static char line[2 * SANDBAR_MAX_PACKET + 2 * SANDBAR_MAX_REPLY + 80], printed[2 * SANDBAR_MAX_REPLY + 16];
static uint8_t packet[SANDBAR_MAX_PACKET], reply[SANDBAR_MAX_REPLY];

static size_t bytes_of(const char *hex, uint8_t *bytes) {
  size_t length = 0;
  for (; isxdigit((unsigned char)hex[0]) && isxdigit((unsigned char)hex[1]); hex += 2) {
    const char two[3] = {hex[0], hex[1], 0};
    bytes[length++] = (uint8_t)strtoul(two, NULL, 16);
  }
  return length;
}

/* What judge prints of the packet of a packet line of port 0. If the journal has no room left, an empty one begins. */
static const char *answer(sandbar_node *node, const char *packet_line) {
  uint8_t end = strstr(packet_line, "EEP") ? SANDBAR_EEP : SANDBAR_EOP;
  size_t length = packet_line[4] == 'P' ? 0 : bytes_of(packet_line + 2, packet);
  sandbar_served served;
  if (sandbar_serve(node, 0, packet, length, end, reply, sizeof reply, &served) != SANDBAR_OK) return "no answer";
  if (served.kind == SANDBAR_JUDGED && served.room == 0 && sandbar_rotate(node, 0, 64) != SANDBAR_OK) return "no journal";
  int at = sprintf(printed, "0 ");
  if (served.kind == SANDBAR_DISCARDED) sprintf(printed + at, "discard %u", served.status);
  else if (served.reply_length == 0) sprintf(printed + at, "-");
  else {
    for (uint32_t i = 0; i < served.reply_length; i += 1) at += sprintf(printed + at, "%02X", reply[i]);
    sprintf(printed + at, " EOP");
  }
  return printed;
}

/* Cuts a text at a tab or a line feed, and gives what comes after it. */
static char *cut(char *text) {
  while (*text != '\t' && *text != '\n' && *text != 0) text += 1;
  if (*text != 0) *text++ = 0;
  return text;
}

int main(int count, char **words) {
  static const uint8_t yes[] = IMAGE_OF(0);
  static const sandbar_bank bank = {.base = 0xA0000000u, .size = 65536, .room = 64};
  static const sandbar_map none = {0};
  sandbar_node node = {0};
  sandbar_why why;
  FILE *in = fopen(words[count - 1], "r");
  if (count != 2 || !in) return EXIT_FAILURE;
  if (sandbar_open(&node, 0xFE, 1, &bank, 1, &none, 0, yes, sizeof yes, &why) != SANDBAR_OK) return EXIT_FAILURE;
  int packets = 0, wrong = 0;
  while (fgets(line, sizeof line, in)) {
    char *sent = cut(line), *due = cut(sent);
    cut(due);
    packets += 1;
    if (strcmp(answer(&node, sent), due) == 0) continue;
    wrong += 1;
    printf("%s: packet %d\n", line, packets);
  }
  fclose(in);
  if (sandbar_close(&node) != SANDBAR_OK) return EXIT_FAILURE;
  printf("suite: %d packets, %d wrong\n", packets, wrong);
  return packets > 0 && wrong == 0 ? EXIT_SUCCESS : EXIT_FAILURE;
}
