/* Upsets of a reader of frames: one bit of it flips between two calls, and the rest of its stream shows what that came to.
 *
 *   reader TRIALS SEED     flips so many bits, and prints a row for each word of 8 bytes in which one did
 *
 * Words are those of the handle, and of the block that it leads to; in the other block, the room for a packet, nothing flips: what a
 * packet has, its own checks see. A stream has 60 frames with a packet each, and comes in pieces of 1 to 40 bytes. The flip is in the
 * first 20 frames. At a code other than 0 the reader is closed, and one is opened for a new connection, which begins with the next
 * frame, as docs/EMBEDDING.md shows. Each trial is a process. The status is 1 if a trial ended in silence, or in a wild access at
 * another word than the two pointers. It wants a system with fork and signals. */
#include "packets.h"
#include "sandbarstove_frames.h"
#include "sandbarstove_heap.h"

#include <signal.h>
#include <stdbool.h>
#include <stdio.h>
#include <stdlib.h>
#include <sys/mman.h>
#include <sys/wait.h>
#include <unistd.h>

enum { PACKETS = 60, EARLY = 20, LONGEST = 200, ROOM = 65536, GUARD = 64 << 20, APART = 64, PAINT = 0xEE };

static uint64_t state;

/* The numbers of splitmix64: two seeds have nothing in common. */
static uint32_t any(uint32_t below) {
  uint64_t it = state += 0x9E3779B97F4A7C15u;
  it = (it ^ it >> 30) * 0xBF58476D1CE4E5B9u;
  it = (it ^ it >> 27) * 0x94D049BB133111EBu;
  return (uint32_t)((it ^ it >> 31) >> 32) % below;
}

/* ---- the reader's memory: its handle and the blocks of its heap, apart from each other, between pages that nobody may touch */

static struct {
  uint8_t *at;
  size_t size;
} blocks[16];
static unsigned block_count;
static uint8_t *arena;
static size_t top;
static sandbar_frames *frames;

static void open_arena(void) {
  uint8_t *guarded = mmap(NULL, 2 * (size_t)GUARD, PROT_NONE, MAP_PRIVATE | MAP_ANONYMOUS | MAP_NORESERVE, -1, 0);
  if (guarded == MAP_FAILED) exit(2);
  arena = guarded + GUARD;
  if (mprotect(arena, ROOM, PROT_READ | PROT_WRITE) != 0) exit(2);
  memset(arena, PAINT, ROOM);
  frames = memset(arena, 0, sizeof *frames);
  top = sizeof *frames + APART;
}

rattle_block rattle_alloc(size_t size, size_t align) {
  (void)align;
  if (block_count == 16 || size > ROOM - APART - top) return (rattle_block){false, arena};
  blocks[block_count].at = arena + top, blocks[block_count].size = size;
  top += (size + 15) / 16 * 16 + APART;
  return (rattle_block){true, blocks[block_count++].at};
}

void rattle_dealloc(void *at) { (void)at; }

rattle_block rattle_realloc(void *at, size_t kept, size_t size, size_t align) {
  rattle_block other = rattle_alloc(size, align);
  if (other.ok) memcpy(other.at, at, kept < size ? kept : size);
  return other;
}

/* Whether a byte of the arena that is nobody's was written. */
static bool is_spilled(void) {
  size_t at = sizeof *frames;
  for (unsigned k = 0; k <= block_count; k += 1) {
    size_t end = k < block_count ? (size_t)(blocks[k].at - arena) : ROOM;
    for (; at < end; at += 1)
      if (arena[at] != PAINT) return true;
    if (k < block_count) at += blocks[k].size;
  }
  return false;
}

/* ---- the stream */

static uint8_t stream[PACKETS * (SANDBAR_FRAME_HEAD + LONGEST)];
static size_t begins[PACKETS + 1]; /* of each frame */

static void make_stream(void) {
  size_t at = 0;
  for (unsigned k = 0; k < PACKETS; k += 1) {
    uint32_t length = 1 + any(LONGEST);
    begins[k] = at;
    sandbar_frames_head(length, stream + at);
    at += SANDBAR_FRAME_HEAD;
    stream[at] = 0xFE; /* no path */
    for (uint32_t n = 1; n < length; n += 1) stream[at + n] = (uint8_t)any(256);
    at += length;
  }
  begins[PACKETS] = at;
}

/* What a flip comes to. */
enum fate {
  NOTHING, /* all packets came as without it */
  REFUSED, /* SANDBAR_NO_NODE */
  DAMAGED, /* SANDBAR_DAMAGED */
  OTHER,   /* no code, and a packet did not come or came otherwise; later ones came */
  SILENT,  /* no code, and none of the last 20 packets came */
  WILD,    /* an access where nothing is, or a byte that is nobody's was written */
  STOPPED, /* a check at run time stopped it, of a library that has them */
  FATES
};

enum { LAST = 20 };

/* The library calls nothing by a pointer: so an instruction that stops the program is a check's, and no wild jump's. */
static _Noreturn void stop(int signal) { _exit(signal == SIGSEGV || signal == SIGBUS ? WILD : STOPPED); }

/* A connection that begins with the first frame from that place on. */
static size_t connect_again(size_t at) {
  unsigned k = 0;
  if (sandbar_frames_close(frames) != SANDBAR_OK) memset(frames, 0, sizeof *frames);
  if (sandbar_frames_open(frames) != SANDBAR_OK) _exit(2 * FATES);
  while (begins[k] < at) k += 1;
  return begins[k];
}

/* The number of the packet that ends there, if it is one of the stream and has these bytes, else PACKETS. */
static unsigned which(const uint8_t *packet, size_t length, size_t end) {
  for (unsigned k = 0; k < PACKETS; k += 1)
    if (begins[k + 1] == end && length == end - begins[k] - SANDBAR_FRAME_HEAD)
      return memcmp(packet, stream + end - length, length) == 0 ? k : PACKETS;
  return PACKETS;
}

/* Reads the stream to its end, with a flip at a place of it. */
static enum fate read_stream(size_t flip_at, uint8_t *byte, uint8_t bit) {
  static uint8_t packet[SANDBAR_MAX_PACKET];
  bool has_come[PACKETS + 1] = {false};
  unsigned code_seen = SANDBAR_OK, whole = 0, last = 0;
  bool is_flipped = false;
  for (size_t at = 0; at < begins[PACKETS];) {
    size_t piece = 1 + any(40), left = begins[PACKETS] - at;
    sandbar_came came;
    if (!is_flipped && at + piece > flip_at) piece = flip_at - at;
    if (piece == 0) {
      *byte = (uint8_t)(*byte ^ 1u << bit), is_flipped = true;
      continue;
    }
    uint32_t code = sandbar_frames_take(frames, stream + at, piece < left ? piece : left, packet, sizeof packet, &came);
    if (code != SANDBAR_OK) {
      code_seen = code, at = connect_again(at + 1);
      continue;
    }
    at += (size_t)came.taken;
    if (came.kind == SANDBAR_PACKET) has_come[which(packet, came.length, at)] = true;
  }
  for (unsigned k = 0; k < PACKETS; k += 1) whole += has_come[k], last += k >= PACKETS - LAST && has_come[k];
  if (is_spilled()) return WILD;
  if (code_seen != SANDBAR_OK) return code_seen == SANDBAR_DAMAGED ? DAMAGED : REFUSED;
  if (last == 0) return SILENT;
  return whole < PACKETS || has_come[PACKETS] ? OTHER : NOTHING;
}

/* A flip: where, in bytes from the front of the handle or, behind it, of the reader's block; and whether a pointer is there. */
struct flip {
  size_t place;
  uint8_t bit;
  bool in_pointer;
};

/* The memory of a reader: its handle, its own block, which is the smaller one, and the room. */
static uint8_t *byte_of(struct flip *flip) {
  unsigned own = blocks[0].size < blocks[1].size ? 0 : 1;
  uint8_t *byte = flip->place < sizeof *frames ? (uint8_t *)frames + flip->place : blocks[own].at + (flip->place - sizeof *frames);
  uint8_t *word = byte - (flip->place % 8);
  uint64_t room = (uint64_t)(uintptr_t)blocks[1 - own].at;
  flip->in_pointer = flip->place < 8 || memcmp(word, &room, sizeof room) == 0;
  return byte;
}

static size_t bytes_of_reader(void) { return sizeof *frames + (blocks[0].size < blocks[1].size ? blocks[0].size : blocks[1].size); }

/* A trial in a process of its own: its fate. */
static enum fate trial(uint64_t seed, struct flip *flip) {
  pid_t child = fork();
  int status;
  if (child < 0) exit(2);
  if (child == 0) {
    const int signals[] = {SIGSEGV, SIGBUS, SIGILL, SIGFPE, SIGABRT, SIGTRAP};
    for (size_t k = 0; k < sizeof signals / sizeof *signals; k += 1) (void)signal(signals[k], stop);
    state = seed;
    make_stream();
    open_arena();
    if (sandbar_frames_open(frames) != SANDBAR_OK) _exit(2 * FATES);
    flip->place = any((uint32_t)bytes_of_reader()), flip->bit = (uint8_t)any(8);
    uint8_t *byte = byte_of(flip);
    alarm(10);
    _exit((int)read_stream(any((uint32_t)begins[EARLY]), byte, flip->bit));
  }
  if (waitpid(child, &status, 0) != child || (WIFEXITED(status) && WEXITSTATUS(status) >= FATES)) exit(2);
  return WIFEXITED(status) ? (enum fate)WEXITSTATUS(status) : SILENT;
}

enum { MOST_WORDS = 64 };

static void print_row(const char *what, const unsigned long *row) {
  printf("%s: %lu, %lu, %lu, %lu, %lu, %lu, %lu\n", what, row[NOTHING], row[REFUSED], row[DAMAGED], row[OTHER], row[SILENT], row[WILD],
         row[STOPPED]);
}

int main(int count, char **words) {
  static unsigned long rows[MOST_WORDS][FATES], sums[FATES];
  static bool has_pointer[MOST_WORDS];
  unsigned long trials = count == 3 ? strtoul(words[1], NULL, 10) : 0, elsewhere = 0;
  uint64_t seed = count == 3 ? strtoull(words[2], NULL, 10) : 0;
  struct flip *flip = mmap(NULL, sizeof *flip, PROT_READ | PROT_WRITE, MAP_SHARED | MAP_ANONYMOUS, -1, 0);
  if (trials == 0 || flip == MAP_FAILED) return 2;
  for (unsigned long k = 0; k < trials; k += 1) {
    enum fate fate = trial(seed << 32 | k, flip);
    size_t word = flip->place / 8;
    if (word >= MOST_WORDS) return 2;
    rows[word][fate] += 1, sums[fate] += 1;
    has_pointer[word] = flip->in_pointer;
    elsewhere += fate == WILD && !flip->in_pointer;
  }
  printf("word: no effect, no reader, damaged, another packet, silence, a wild access, stopped by a check\n");
  for (size_t k = 0; k < MOST_WORDS; k += 1) {
    char name[40];
    unsigned long row_sum = 0;
    for (size_t fate = 0; fate < FATES; fate += 1) row_sum += rows[k][fate];
    snprintf(name, sizeof name, "%s %zu%s", k < 2 ? "handle" : "reader", k < 2 ? 8 * k : 8 * (k - 2), has_pointer[k] ? ", a pointer" : "");
    if (row_sum != 0) print_row(name, rows[k]);
  }
  print_row("all", sums);
  if (sums[SILENT] + elsewhere == 0) return EXIT_SUCCESS;
  printf("FAILED: %lu in silence, %lu wild where no pointer is\n", sums[SILENT], elsewhere);
  return EXIT_FAILURE;
}
