/* What the library asks of malloc, and what it does where it is refused. Linked with --wrap=malloc,realloc,free. A_PACKET: how
 * often it asks for a packet: once, and not at all where a node has its memory inside (link/portable source). */
#include "packets.h"
#include "sandbarstove_frames.h"

#include <malloc.h>
#include <stdio.h>
#include <stdlib.h>

void *__real_malloc(size_t size);
void *__real_realloc(void *block, size_t size);
void __real_free(void *block);
void *__wrap_malloc(size_t size);
void *__wrap_realloc(void *block, size_t size);
void __wrap_free(void *block);

#ifndef A_PACKET
#define A_PACKET 1
#endif

static long requests, refuse_at, blocks;
static size_t held;

static int is_refused(void) {
  requests += 1;
  return requests == refuse_at;
}

void *__wrap_malloc(size_t size) {
  if (is_refused()) return NULL;
  void *block = __real_malloc(size);
  if (block != NULL) {
    blocks += 1;
    held += malloc_usable_size(block);
  }
  return block;
}

void *__wrap_realloc(void *block, size_t size) {
  if (is_refused()) return NULL;
  size_t before = block == NULL ? 0 : malloc_usable_size(block);
  void *other = __real_realloc(block, size);
  if (other != NULL) {
    blocks += block == NULL;
    held = held - before + malloc_usable_size(other);
  }
  return other;
}

void __wrap_free(void *block) {
  if (block != NULL) {
    blocks -= 1;
    held -= malloc_usable_size(block);
  }
  __real_free(block);
}

static const uint8_t yes[] = IMAGE_OF(0), no[] = IMAGE_OF(10);
static uint8_t reply[SANDBAR_MAX_REPLY];
static int failures;

static void holds(int condition, const char *what, long n) {
  if (!condition) {
    failures += 1;
    printf("FAILED: %s, request %ld\n", what, n);
  }
}

static uint32_t open_node(sandbar_node *node, uint8_t ports, uint32_t room) {
  const sandbar_bank bank = {0xA0000000u, 65536, room};
  const sandbar_map map = {1, 0};
  sandbar_why why;
  return sandbar_open(node, 0xFE, ports, &bank, 1, &map, 1, yes, sizeof yes, &why);
}

/* What a node of so many ports takes, and gives back. */
static void sizes(uint8_t ports) {
  uint8_t packet[16];
  sandbar_node node = {0};
  sandbar_served served;
  requests = 0;
  holds(open_node(&node, ports, 1024) == SANDBAR_OK, "open", 0);
  printf("open, %u ports: %ld requests, %zu bytes in %ld blocks\n", ports, requests, held, blocks);
  size_t length = put_read(packet, 1, 0, 0xA0000000u, 16);
  requests = 0;
  holds(sandbar_serve(&node, 0, packet, length, SANDBAR_EOP, reply, sizeof reply, &served) == SANDBAR_OK, "serve", 0);
  printf("a read: %ld requests\n", requests);
  holds(requests == A_PACKET, "so many requests a packet", requests);
  sandbar_close(&node);
  holds(held == 0 && blocks == 0, "all is given back", 0);
}

/* Each request of an opening refused in turn. */
static void openings(void) {
  long n = 1;
  for (;; n += 1) {
    sandbar_node node = {0};
    requests = 0;
    refuse_at = n;
    uint32_t code = open_node(&node, 2, 16);
    long asked = requests;
    refuse_at = 0;
    if (asked < n) {
      holds(code == SANDBAR_OK && sandbar_close(&node) == SANDBAR_OK, "open", n);
      break;
    }
    holds(code == SANDBAR_NO_MEMORY && node.live == 0 && node.inside == 0 && blocks == 0, "a refused opening", n);
  }
  holds(blocks == 0, "all is given back", n);
  printf("openings: %ld requests refused in turn\n", n - 1);
}

static sandbar_served serve(sandbar_node *node, const uint8_t *packet, size_t length) {
  sandbar_served served;
  holds(sandbar_serve(node, 0, packet, length, SANDBAR_EOP, reply, sizeof reply, &served) == SANDBAR_OK, "serve", 0);
  return served;
}

/* The load of a program that denies reads, on a fresh node, with the n-th request refused. Gives the requests of it. */
static long load(long n) {
  uint8_t packet[64], control[4] = {0, 0, 0, sizeof no};
  sandbar_node node = {0};
  holds(open_node(&node, 2, 16) == SANDBAR_OK, "open", n);
  holds(serve(&node, packet, put_write(packet, 0, 0xFF, 0, no, sizeof no)).status == 0, "stage", n);
  size_t length = put_write(packet, 1, 0xFF, 0x10000, control, 4);
  sandbar_served served = {.verdict = 1, .generation = 2, .reply_length = 3, .kind = 4, .status = 5};
  memset(reply, 0xEE, sizeof reply);
  requests = 0;
  refuse_at = n;
  uint32_t code = sandbar_serve(&node, 0, packet, length, SANDBAR_EOP, reply, sizeof reply, &served);
  long asked = requests;
  refuse_at = 0;
  if (n == 1 && asked >= 1) {
    int same = served.verdict == 1 && served.generation == 2 && served.reply_length == 3 && served.status == 5;
    holds(code == SANDBAR_NO_MEMORY && same && reply[0] == 0xEE, "nothing is written", n);
  } else {
    holds(code == SANDBAR_OK && served.status == (n <= asked ? 1 : 0), "the reply tells of the load", n);
  }
  uint8_t judged = serve(&node, packet, put_read(packet, 2, 0, 0xA0000000u, 1)).status;
  holds(judged == (n <= asked ? 0 : 10), "the old program judges where the load was refused", n);
  sandbar_close(&node);
  holds(blocks == 0, "all is given back", n);
  return asked;
}

/* The publish of a program that denies reads, at a fresh node, with the n-th request refused. Gives the requests of it. */
static long publish(long n) {
  uint8_t packet[16];
  sandbar_node node = {0};
  sandbar_why why = {9, 9};
  holds(open_node(&node, 2, 16) == SANDBAR_OK, "open", n);
  requests = 0;
  refuse_at = n;
  uint32_t code = sandbar_publish(&node, 0, no, sizeof no, &why);
  long asked = requests;
  refuse_at = 0;
  holds(code == (n <= asked ? SANDBAR_NO_MEMORY : SANDBAR_OK) && why.code == 0 && why.slot == 0, "a refused publish", n);
  sandbar_served served = serve(&node, packet, put_read(packet, 1, 0, 0xA0000000u, 1));
  holds(served.status == (n <= asked ? 0 : 10), "the old program judges if the publish was refused", n);
  holds(sandbar_publish(&node, 0, yes, sizeof yes, &why) == SANDBAR_OK, "publish", n);
  served = serve(&node, packet, put_read(packet, 2, 0, 0xA0000000u, 1));
  holds(served.generation == (n <= asked ? 1 : 2), "a refused publish counts no generation", n);
  sandbar_close(&node);
  holds(blocks == 0, "all is given back", n);
  return asked;
}

/* A journal is turned with no request, also by a poke. With more room it is refused, and then its entry is there still. */
static void turns(void) {
  const uint8_t four[4] = {1, 2, 3, 4};
  uint8_t packet[16];
  sandbar_node node = {0};
  sandbar_journal journal;
  holds(open_node(&node, 1, 16) == SANDBAR_OK, "open", 0);
  size_t length = put_read(packet, 1, 0, 0xA0000000u, 16);
  for (int k = 0; k < 16; k += 1) serve(&node, packet, length);
  requests = 0;
  refuse_at = 1;
  holds(sandbar_rotate(&node, 0, 16) == SANDBAR_OK && sandbar_poke(&node, 0, 0xA0000000u, four, 4, 16) == SANDBAR_OK &&
            sandbar_rotate(&node, 0, 1) == SANDBAR_OK && requests == 0, "a turn asks for nothing", requests);
  refuse_at = 0;
  serve(&node, packet, length);
  requests = 0;
  refuse_at = 1;
  uint32_t turned = sandbar_rotate(&node, 0, 1024);
  long asked = requests;
  refuse_at = 0;
  holds(turned == (asked > 0 ? SANDBAR_NO_MEMORY : SANDBAR_OK), "a turn with more room", asked);
  holds(sandbar_journal_of(&node, 0, &journal) == SANDBAR_OK && journal.entries == (asked > 0), "the entries then", asked);
  sandbar_close(&node);
  holds(blocks == 0, "all is given back", 0);
}

/* Each request of an opening of a reader of frames refused in turn. Then it takes a stream with no request. */
static void readers(void) {
  static uint8_t packet[SANDBAR_MAX_PACKET], stream[SANDBAR_FRAME_HEAD + 5000];
  sandbar_frames frames = {0};
  sandbar_came came;
  long n = 0, asked;
  uint32_t code;
  sandbar_frames_head(5000, stream);
  memset(stream + SANDBAR_FRAME_HEAD, 0xFE, 5000);
  do {
    n += 1;
    requests = 0;
    refuse_at = n;
    code = sandbar_frames_open(&frames);
    asked = requests;
    refuse_at = 0;
    if (asked >= n)
      holds(code == SANDBAR_NO_MEMORY && frames.live == 0 && frames.inside == 0 && blocks == 0, "a refused reader", n);
  } while (asked >= n);
  holds(code == SANDBAR_OK, "a reader", n);
  printf("readers of frames: %ld requests refused in turn, %zu bytes in %ld blocks\n", n - 1, held, blocks);
  requests = 0;
  refuse_at = 1;
  for (int k = 0; k < 3; k += 1)
    holds(sandbar_frames_take(&frames, stream, sizeof stream, packet, sizeof packet, &came) == SANDBAR_OK &&
              came.kind == SANDBAR_PACKET && came.length == SANDBAR_MAX_PACKET && requests == 0, "frames ask for nothing", requests);
  refuse_at = 0;
  holds(sandbar_frames_close(&frames) == SANDBAR_OK && blocks == 0, "all is given back", 0);
}

int main(void) {
  sizes(1);
  sizes(32);
  openings();
  long n = 1;
  while (load(n) >= n) n += 1;
  printf("loads: %ld requests refused in turn\n", n - 1);
  n = 1;
  while (publish(n) >= n) n += 1;
  printf("publishes: %ld requests refused in turn\n", n - 1);
  turns();
  readers();
  printf("%s\n", failures == 0 ? "all held" : "failed");
  return failures == 0 ? EXIT_SUCCESS : EXIT_FAILURE;
}
