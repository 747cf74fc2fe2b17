/* How much stack calls take: each runs in a thread whose stack was painted, and what is no more painted was used. With the word
 * `calls` each has a line, with its name; a serving is the one that took most. */
#include "packets.h"
#include "sandbarstove_frames.h"

#include <pthread.h>
#include <stdio.h>
#include <stdlib.h>

enum { STACK = 1 << 20, PAINT = 0xA5 };

static const uint8_t yes[] = IMAGE_OF(0), no[] = IMAGE_OF(10);
static uint8_t packet[64], reply[SANDBAR_MAX_REPLY];
static size_t length;
static sandbar_node node;
static sandbar_frames frames;
static uint8_t room[SANDBAR_MAX_PACKET], frame[SANDBAR_FRAME_HEAD + 4] = {[SANDBAR_FRAME_HEAD] = 0xFE, 0xFE, 0xFE, 0xFE};

static void *nothing(void *unused) { return unused; }

static void *opening(void *unused) {
  const sandbar_bank bank = {0xA0000000u, 65536, 1024};
  const sandbar_map map = {1, 0};
  sandbar_why why;
  if (sandbar_open(&node, 0xFE, 2, &bank, 1, &map, 1, yes, sizeof yes, &why) != SANDBAR_OK) exit(EXIT_FAILURE);
  return unused;
}

static void *serving(void *unused) {
  sandbar_served served;
  uint32_t code = sandbar_serve(&node, 0, packet, length, SANDBAR_EOP, reply, sizeof reply, &served);
  if (code != SANDBAR_OK || served.status != 0) exit(EXIT_FAILURE);
  return unused;
}

static void *verifying(void *unused) {
  const sandbar_map map = {1, 0};
  sandbar_why why;
  if (sandbar_verify(&map, 1, yes, sizeof yes, &why) != SANDBAR_OK) exit(EXIT_FAILURE);
  return unused;
}

static void *telling(void *unused) {
  sandbar_journal journal;
  if (sandbar_journal_of(&node, 0, &journal) != SANDBAR_OK || journal.entries == 0) exit(EXIT_FAILURE);
  return unused;
}

static void *reading(void *unused) {
  sandbar_entry entry;
  uint8_t room[64];
  if (sandbar_entry_at(&node, 0, 0, room, sizeof room, &entry) != SANDBAR_OK) exit(EXIT_FAILURE);
  return unused;
}

static void *turning(void *unused) {
  if (sandbar_rotate(&node, 0, 1024) != SANDBAR_OK) exit(EXIT_FAILURE);
  return unused;
}

static void *peeking(void *unused) {
  uint8_t bytes[16];
  if (sandbar_peek(&node, 0, 0xA0000000u, bytes, sizeof bytes) != SANDBAR_OK) exit(EXIT_FAILURE);
  return unused;
}

static void *poking(void *unused) {
  if (sandbar_poke(&node, 0, 0xA0000000u, no, 16, 1024) != SANDBAR_OK) exit(EXIT_FAILURE);
  return unused;
}

static void *counting(void *unused) {
  uint64_t word;
  if (sandbar_word(&node, 0, 0, &word) != SANDBAR_OK) exit(EXIT_FAILURE);
  return unused;
}

static void *scrubbing(void *unused) {
  sandbar_scrubbed scrubbed;
  if (sandbar_scrub(&node, SANDBAR_ALL, no, sizeof no, &scrubbed) != SANDBAR_OK) exit(EXIT_FAILURE);
  return unused;
}

static void *choosing(void *unused) {
  if (sandbar_scrub_each(&node, 0) != SANDBAR_OK) exit(EXIT_FAILURE);
  return unused;
}

static void *summing(void *unused) {
  packet[0] = sandbar_crc(packet, length);
  return unused;
}

static void *naming(void *unused) {
  if (sandbar_version() != SANDBAR_VERSION) exit(EXIT_FAILURE);
  return unused;
}

static void *closing(void *unused) {
  if (sandbar_close(&node) != SANDBAR_OK) exit(EXIT_FAILURE);
  return unused;
}

static void *framing(void *unused) {
  if (sandbar_frames_open(&frames) != SANDBAR_OK) exit(EXIT_FAILURE);
  return unused;
}

static void *taking(void *unused) {
  sandbar_came came;
  if (sandbar_frames_take(&frames, frame, sizeof frame, room, sizeof room, &came) != SANDBAR_OK) exit(EXIT_FAILURE);
  if (came.kind != SANDBAR_PACKET || came.length != 4) exit(EXIT_FAILURE);
  return unused;
}

static void *heading(void *unused) {
  sandbar_frames_head(4, frame);
  return unused;
}

static void *unframing(void *unused) {
  if (sandbar_frames_close(&frames) != SANDBAR_OK) exit(EXIT_FAILURE);
  return unused;
}

static size_t used(void *(*work)(void *)) {
  pthread_attr_t attributes;
  pthread_t thread;
  uint8_t *stack = aligned_alloc(4096, STACK);
  if (stack == NULL) exit(EXIT_FAILURE);
  memset(stack, PAINT, STACK);
  pthread_attr_init(&attributes);
  pthread_attr_setstack(&attributes, stack, STACK);
  if (pthread_create(&thread, &attributes, work, NULL) != 0) exit(EXIT_FAILURE);
  pthread_join(thread, NULL);
  size_t clean = 0;
  while (clean < STACK && stack[clean] == PAINT) clean += 1;
  free(stack);
  return STACK - clean;
}

static void put_control(void) {
  const uint8_t control[4] = {0, 0, 0, sizeof no};
  length = put_write(packet, 3, 0xFF, 0x10000, control, 4);
}

static void put_image(void) { length = put_write(packet, 2, 0xFF, 0, no, sizeof no); }

static void put_reading(void) { length = put_read(packet, 1, 0, 0xA0000000u, 16); }

/* The calls in an order in which each succeeds, and what is put into `packet` before. */
static int print_calls(size_t thread) {
  static const struct {
    const char *name;
    void *(*work)(void *);
    void (*before)(void);
  } calls[] = {
      {"sandbar_version", naming, NULL},         {"sandbar_verify", verifying, NULL},   {"sandbar_open", opening, NULL},
      {"sandbar_serve", serving, put_reading},   {"sandbar_serve", serving, put_image}, {"sandbar_serve", serving, put_control},
      {"sandbar_journal_of", telling, NULL},     {"sandbar_entry_at", reading, NULL},   {"sandbar_peek", peeking, NULL},
      {"sandbar_rotate", turning, NULL},         {"sandbar_poke", poking, NULL},        {"sandbar_word", counting, NULL},
      {"sandbar_scrub", scrubbing, NULL},        {"sandbar_scrub_each", choosing, NULL},
      {"sandbar_crc", summing, NULL},            {"sandbar_close", closing, NULL},      {"sandbar_frames_head", heading, NULL},
      {"sandbar_frames_open", framing, NULL},    {"sandbar_frames_take", taking, NULL}, {"sandbar_frames_close", unframing, NULL},
  };
  size_t serving_most = 0;
  for (size_t i = 0; i < sizeof calls / sizeof calls[0]; i += 1) {
    if (calls[i].before != NULL) calls[i].before();
    size_t found = used(calls[i].work) - thread;
    if (calls[i].work != serving) printf("%s %zu\n", calls[i].name, found);
    if (calls[i].work == serving && found > serving_most) serving_most = found;
  }
  printf("sandbar_serve %zu\n", serving_most);
  return EXIT_SUCCESS;
}

int main(int count, char **words) {
  size_t thread = used(nothing);
  if (count == 2 && strcmp(words[1], "calls") == 0) return print_calls(thread);
  printf("opening %zu\n", used(opening) - thread);
  put_reading();
  printf("a read %zu\n", used(serving) - thread);
  put_image();
  used(serving);
  put_control();
  printf("a load %zu\n", used(serving) - thread);
  return sandbar_close(&node) == SANDBAR_OK ? EXIT_SUCCESS : EXIT_FAILURE;
}
