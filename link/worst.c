/*
 * What instructions, packets and loads take on this machine: worst [calls FILE].
 *
 * Each class of instructions (docs/EMBEDDING.md, "How long a packet takes") is measured by programs of one loop that fill
 * the greatest budget, in the best of several rounds: the dearest kind of each class that is known here. Then the same of
 * what else a packet takes, and of the verifier, which a load waits for. `calls FILE` writes the image of the calls and
 * measures nothing.
 */
#include "packets.h"

#include <stdio.h>
#include <stdlib.h>
#include <string.h>
#include <time.h>

enum { ROUNDS = 9, BUDGET = 65536, MOST_SLOTS = 512, MOST_LOOPS = 8, BANK = 65536 };

/* Opcodes (RFC 9669). */
enum {
  MOV = 0xB7, MOV_X = 0xBF, ADD = 0x07, ADD_X = 0x0F, MUL_X = 0x2F, LSH = 0x67, RSH = 0x77, ARSH_X = 0xCF, XOR_X = 0xAF,
  DIV_X = 0x3F, MOD_X = 0x9F, DIV32_X = 0x3C, BE = 0xDC, LDXB = 0x71, LDXDW = 0x79, STXDW = 0x7B, LDDW = 0x18, JSET = 0x45,
  JNE = 0x55, JA = 0x05, CALL = 0x85, EXIT = 0x95
};

/* An image that is made: its slots, and its loops. */
struct made {
  uint8_t slots[8 * MOST_SLOTS], loops[8 * MOST_LOOPS];
  unsigned count, loop_count;
};

static void put(struct made *made, uint8_t opcode, unsigned dst, unsigned src, int offset, uint32_t immediate) {
  uint8_t *at = made->slots + 8 * made->count++;
  at[0] = opcode;
  at[1] = (uint8_t)(src << 4 | dst);
  at[2] = (uint8_t)offset;
  at[3] = (uint8_t)((unsigned)offset >> 8);
  for (int k = 0; k < 4; k += 1) at[4 + k] = (uint8_t)(immediate >> 8 * k);
}

/* The end of a loop that began at a slot, which its counter lets pass so often. */
static void put_again(struct made *made, unsigned head, unsigned counter, unsigned bound) {
  put(made, ADD, counter, 0, 0, 0xFFFFFFFFu);
  put(made, JNE, counter, 0, (int)head - (int)made->count - 1, 0);
  uint8_t *at = made->loops + 8 * made->loop_count++;
  const unsigned numbers[3] = {head, made->count - 1, bound};
  for (int k = 0; k < 3; k += 1) {
    at[2 * k] = (uint8_t)numbers[k];
    at[2 * k + 1] = (uint8_t)(numbers[k] >> 8);
  }
  at[6] = (uint8_t)counter;
  at[7] = 0;
}

/* The bytes of the image, with the greatest budget, and how many they are. */
static size_t finish(struct made *made, uint8_t *image) {
  put(made, MOV, 0, 0, 0, 0);
  put(made, EXIT, 0, 0, 0, 0);
  const uint8_t header[16] = {0x42, 0x50, 0x46, 0x41, 1, (uint8_t)made->loop_count, (uint8_t)made->count,
                              (uint8_t)(made->count >> 8), 0, 0, 1, 0, 0, 0, 0, 0};
  memcpy(image, header, 16);
  memcpy(image + 16, made->loops, 8 * made->loop_count);
  memcpy(image + 16 + 8 * made->loop_count, made->slots, 8 * made->count);
  return 16 + 8 * made->loop_count + 8 * made->count;
}

/* One kind of instruction, as the body of a loop has it: how many of them and of others a round takes. */
struct kind {
  const char *name;
  void (*body)(struct made *);
  double own, others;
};

static void put_many(struct made *made, int times, uint8_t opcode, unsigned dst, unsigned src, int offset, uint32_t immediate) {
  for (int k = 0; k < times; k += 1) put(made, opcode, dst, src, offset, immediate);
}

static void movs(struct made *made) { put_many(made, 14, MOV, 1, 0, 0, 1); }
static void multiplications(struct made *made) { put_many(made, 14, MUL_X, 7, 7, 0, 0); }
static void additions(struct made *made) { put_many(made, 14, ADD_X, 7, 8, 0, 0); }
static void shifts(struct made *made) { put_many(made, 14, ARSH_X, 7, 8, 0, 0); }
static void swaps(struct made *made) { put_many(made, 14, BE, 7, 0, 0, 64); }
static void gotos(struct made *made) { put_many(made, 14, JA, 0, 0, 0, 0); }
static void loads(struct made *made) { put_many(made, 14, LDXB, 1, 9, 5, 0); }

static void stack(struct made *made) {
  for (int k = 0; k < 7; k += 1) {
    put(made, STXDW, 10, 7, -8, 0);
    put(made, LDXDW, 7, 10, -8, 0);
  }
}

static void wides(struct made *made) {
  for (int k = 0; k < 14; k += 1) {
    put(made, LDDW, 1, 0, 0, 0xFFFFFFFFu);
    put(made, 0, 0, 0, 0, 0x7FFFFFFFu);
  }
}

/* Of all ones, or of the greatest signed number, by 3. */
static void divided(struct made *made, uint8_t opcode, int is_signed) {
  for (int k = 0; k < 7; k += 1) {
    put(made, MOV_X, 1, 8, 0, 0);
    put(made, opcode, 1, 9, is_signed, 0);
  }
}

static void divisions(struct made *made) { divided(made, DIV_X, 0); }
static void remainders(struct made *made) { divided(made, MOD_X, 0); }
static void signed_divisions(struct made *made) { divided(made, DIV_X, 1); }
static void signed_remainders(struct made *made) { divided(made, MOD_X, 1); }
static void short_divisions(struct made *made) { divided(made, DIV32_X, 0); }

static void calls_of(struct made *made, unsigned helper) {
  for (int k = 0; k < 4; k += 1) {
    put(made, MOV_X, 1, 8, 0, 0);
    put(made, MOV, 2, 0, 0, 0);
    put(made, CALL, 0, 0, 0, helper);
  }
  put_many(made, 2, MOV, 1, 0, 0, 1);
}

static void counts(struct made *made) { calls_of(made, 1); }
static void tickets(struct made *made) { calls_of(made, 2); }

static void foretold(struct made *made) { put_many(made, 14, JNE, 7, 0, 0, 0x12345u); }

/* Jumps that no processor foretells: each by a bit of a xorshift that begins with the packet's header. */
static void unforetold(struct made *made) {
  const uint32_t shifts[3] = {13, 7, 17};
  for (int k = 0; k < 3; k += 1) {
    put(made, MOV_X, 1, 7, 0, 0);
    put(made, k == 1 ? RSH : LSH, 1, 0, 0, shifts[k]);
    put(made, XOR_X, 7, 1, 0, 0);
  }
  for (int k = 0; k < 26; k += 1) {
    put(made, JSET, 7, 0, 1, 1u << k);
    put(made, MOV, 1, 0, 0, 1);
  }
}

static const struct kind rests[] = {{"mov", movs, 16, 0},          {"add", additions, 14, 2}, {"mul", multiplications, 14, 2},
                                    {"arsh", shifts, 14, 2},       {"swap", swaps, 14, 2},    {"ja", gotos, 14, 2},
                                    {"load", loads, 14, 2},        {"stack", stack, 14, 2},   {"lddw", wides, 14, 2}};
static const struct kind divisions_of[] = {{"div", divisions, 7, 9}, {"mod", remainders, 7, 9}, {"sdiv", signed_divisions, 7, 9},
                                           {"smod", signed_remainders, 7, 9}, {"div32", short_divisions, 7, 9}};
static const struct kind calls[] = {{"count", counts, 4, 12}, {"ticket", tickets, 4, 12}};
static const struct kind jumps[] = {{"foretold", foretold, 15, 1}, {"not foretold", unforetold, 26, 24}};

/* The image of a loop with that body, and how often it is passed. */
static size_t image_of(const struct kind *kind, uint8_t *image, unsigned *bound) {
  static struct made made;
  memset(&made, 0, sizeof made);
  if (kind->body == divisions || kind->body == remainders || kind->body == short_divisions) {
    put(&made, LDDW, 8, 0, 0, 0xFFFFFFFFu);
    put(&made, 0, 0, 0, 0, 0xFFFFFFFFu);
    put(&made, MOV, 9, 0, 0, 3);
  } else if (kind->body == signed_divisions || kind->body == signed_remainders) {
    put(&made, LDDW, 8, 0, 0, 0xFFFFFFFFu);
    put(&made, 0, 0, 0, 0, 0x7FFFFFFFu);
    put(&made, MOV, 9, 0, 0, 3);
  } else if (kind->body == counts || kind->body == tickets) {
    put(&made, LDDW, 8, 5, 0, 0);
    put(&made, 0, 0, 0, 0, 0);
  } else {
    put(&made, LDXDW, 7, 2, 0, 0);
    put(&made, MOV, 8, 0, 0, 3);
    put(&made, MOV_X, 9, 2, 0, 0);
  }
  unsigned counter = made.count++;
  unsigned head = made.count;
  kind->body(&made);
  unsigned slots = 0;
  for (unsigned k = head; k < made.count; k += 1) slots += made.slots[8 * k] != 0;
  *bound = (BUDGET - 8) / (slots + 2);
  if (*bound > 4095) *bound = 4095;
  unsigned end = made.count;
  made.count = counter;
  put(&made, MOV, 6, 0, 0, *bound);
  made.count = end;
  put_again(&made, head, 6, *bound);
  return finish(&made, image);
}

static double now(void) {
  struct timespec time;
  timespec_get(&time, TIME_UTC);
  return (double)time.tv_sec * 1e9 + (double)time.tv_nsec;
}

static void fail(const char *what) {
  fprintf(stderr, "worst: %s\n", what);
  exit(1);
}

/* A node of one bank and one map of one cell, which the program of the image judges. */
static void begin(sandbar_node *node, const uint8_t *image, size_t length, uint32_t room) {
  const sandbar_bank bank = {0xA0000000u, BANK, room};
  const sandbar_map map = {1, 0};
  sandbar_why why;
  memset(node, 0, sizeof *node);
  if (sandbar_open(node, 0xFE, 1, &bank, 1, &map, 1, image, length, &why) != SANDBAR_OK) fail("an image is refused");
}

static volatile uint8_t cold[64 << 20];

/* The nanoseconds of a packet in the best of some rounds: so many a round, each another transaction; with `chill` each comes
   to cold caches, and the longest of a round counts. */
static double packet_of(const uint8_t *image, size_t length, uint32_t bytes, int is_write, int packets, int chill) {
  static uint8_t reply[SANDBAR_MAX_REPLY], data[4096], in[5000];
  sandbar_node node;
  sandbar_served served;
  double best = 1e18;
  begin(&node, image, length, 65536);
  for (int round = 0; round < ROUNDS; round += 1) {
    if (sandbar_rotate(&node, 0, 65536) != SANDBAR_OK) fail("no journal");
    double sum = 0, longest = 0;
    for (int k = 0; k < packets; k += 1) {
      uint16_t transaction = (uint16_t)(round * packets + k);
      size_t size = is_write ? put_write(in, transaction, 0, 0xA0000000u, data, bytes)
                             : put_read(in, transaction, 0, 0xA0000000u, bytes);
      if (chill) for (size_t at = 0; at < sizeof cold; at += 64) cold[at] += 1;
      double begun = now();
      if (sandbar_serve(&node, 0, in, size, SANDBAR_EOP, reply, sizeof reply, &served) != SANDBAR_OK) fail("not served");
      double time = now() - begun;
      if (served.status != 0) fail("a packet was not carried out");
      sum += time;
      if (time > longest) longest = time;
    }
    double of_round = chill ? longest : sum / packets;
    if (of_round < best) best = of_round;
  }
  if (sandbar_close(&node) != SANDBAR_OK) fail("not closed");
  return best;
}

static double own;  /* what a packet of 16 bytes takes beside its program */
static double mov;  /* what a mov takes */

/* The nanoseconds of one instruction of this kind. Each other one of the loop is given the time of a mov. */
static double time_of(const struct kind *kind) {
  static uint8_t image[16 + 8 * MOST_LOOPS + 8 * MOST_SLOTS];
  unsigned bound;
  size_t length = image_of(kind, image, &bound);
  double round = (packet_of(image, length, 16, 0, 40, 0) - own) / bound;
  return (round - kind->others * mov) / kind->own;
}

/* Prints the kinds of a class, and gives the dearest. */
static double dearest(const char *name, const struct kind *kinds, size_t count) {
  double most = 0;
  printf("%s:", name);
  for (size_t k = 0; k < count; k += 1) {
    double time = time_of(&kinds[k]);
    printf("%s %s %.2f", k == 0 ? "" : ",", kinds[k].name, time);
    if (time > most) most = time;
  }
  printf(" ns\n");
  return most;
}

/* Up: so many nanoseconds and no fewer. */
static unsigned whole(double time) {
  unsigned up = (unsigned)time;
  return (double)up < time ? up + 1 : up;
}

/* Eight loops behind each other, of moves, joins and stores: it is no search for the dearest image. */
static size_t slow_to_verify(uint8_t *image) {
  static struct made made;
  memset(&made, 0, sizeof made);
  put(&made, LDXB, 9, 1, 0, 0);
  for (int k = 0; k < MOST_LOOPS; k += 1) {
    for (unsigned r = 1; r < 9; r += 1) put(&made, MOV, r, 0, 0, 0);
    put(&made, MOV, 0, 0, 0, 2);
    unsigned head = made.count;
    for (unsigned r = 1; r < 9; r += 1) put(&made, MOV_X, r, r + 1, 0, 0);
    for (int j = 0; j < 21; j += 1) {
      put(&made, JSET, 9, 0, 1, 1u << j);
      put(&made, STXDW, 10, 9, -8 * (j + 1), 0);
    }
    put_again(&made, head, 0, 2);
    put(&made, MOV_X, 9, 1, 0, 0);
  }
  return finish(&made, image);
}

/* The nanoseconds of the verifier on an image, in the best round. */
static double verify_of(const uint8_t *image, size_t length) {
  const sandbar_map map = {1, 0};
  sandbar_why why;
  double best = 1e18;
  for (int round = 0; round < ROUNDS; round += 1) {
    double begun = now();
    if (sandbar_verify(&map, 1, image, length, &why) != SANDBAR_OK) fail("an image is refused");
    double time = now() - begun;
    if (time < best) best = time;
  }
  return best;
}

int main(int count, char **words) {
  static uint8_t image[16 + 8 * MOST_LOOPS + 8 * MOST_SLOTS];
  static const uint8_t yes[] = IMAGE_OF(0);
  if (count == 3 && strcmp(words[1], "calls") == 0) {
    unsigned bound;
    size_t length = image_of(&calls[1], image, &bound);
    FILE *file = fopen(words[2], "wb");
    if (file == NULL || fwrite(image, 1, length, file) != length || fclose(file) != 0) fail("cannot write");
    printf("%u\n", 4 * bound);
    return 0;
  }
  own = packet_of(yes, sizeof yes, 16, 0, 1000, 0);
  double write = packet_of(yes, sizeof yes, 16, 1, 1000, 0), long_write = packet_of(yes, sizeof yes, 4096, 1, 1000, 0);
  double long_read = packet_of(yes, sizeof yes, 4096, 0, 1000, 0);
  double chilled = packet_of(yes, sizeof yes, 4096, 1, 3, 1);
  mov = time_of(&rests[0]);
  double rest = dearest("rest", rests, sizeof rests / sizeof *rests);
  double division = dearest("division", divisions_of, sizeof divisions_of / sizeof *divisions_of);
  double call = dearest("call", calls, sizeof calls / sizeof *calls);
  double jump = dearest("jump", jumps, sizeof jumps / sizeof *jumps);
  double slope = (long_write - write) / 4080, of_reads = (long_read - own) / 4080;
  printf("packet: read of 16 %.0f ns, write of 16 %.0f ns, %.2f ns a byte more; write of 4096 with cold caches %.0f ns\n", own,
         write, slope > of_reads ? slope : of_reads, chilled);
  printf("load: verify of eight loops of joins and stores %.0f us\n", verify_of(image, slow_to_verify(image)) / 1000);
  printf("--ns %u,%u,%u,%u\n", whole(division), whole(call), whole(jump), whole(rest));
  return 0;
}
