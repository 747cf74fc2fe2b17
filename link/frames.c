/* What the calls on frames do, against a reader that is written here anew: frames of each kind, a stream that is cut at every byte
 * and anyhow, packets that are too long, and each code. It prints one sum of all that came, the same on each processor. */
#include "sandbarstove_frames.h"

#include <stdio.h>
#include <stdlib.h>
#include <string.h>

_Static_assert(sizeof(sandbar_frames) == 16 && offsetof(sandbar_frames, live) == 8, "as the library has it");
_Static_assert(sizeof(sandbar_came) == 16 && offsetof(sandbar_came, length) == 8 && offsetof(sandbar_came, kind) == 12 &&
                   offsetof(sandbar_came, end) == 13 && offsetof(sandbar_came, flag) == 14,
               "as the library has it");

enum { STREAM = 200000, EVENTS = 4000, ROOM = SANDBAR_MAX_PACKET + 7 };

static int checks, failures;
static uint64_t state = 1, sum = 14695981039346656037u;

static void holds(int condition, const char *what) {
  checks += 1;
  if (!condition) {
    failures += 1;
    printf("FAILED: %s\n", what);
  }
}

static void add(uint64_t number) { sum = (sum ^ number) * 1099511628211u; }

static uint32_t any(uint32_t below) {
  state ^= state << 13, state ^= state >> 7, state ^= state << 17;
  return (uint32_t)(state >> 33) % below;
}

/* ---- a stream, and what is whole in it */

typedef struct {
  size_t ends; /* how many bytes of the stream come up to it */
  uint8_t kind, end, flag;
  size_t from, length; /* a packet's bytes in `kept` */
} event;

static uint8_t stream[STREAM], kept[STREAM];
static event events[EVENTS];
static size_t length, kept_length, events_count;

static void begin(void) { length = kept_length = events_count = 0; }

static size_t put_head(uint8_t flag, uint8_t reserved, uint64_t bytes) {
  stream[length] = flag;
  stream[length + 1] = reserved;
  memset(stream + length + 2, 0, 2);
  for (size_t k = 0; k < 8; k += 1) stream[length + 11 - k] = (uint8_t)(bytes >> 8 * k);
  return length += SANDBAR_FRAME_HEAD;
}

static void ended(uint8_t kind, uint8_t end, uint8_t flag) {
  size_t from = events_count == 0 ? 0 : events[events_count - 1].from + events[events_count - 1].length;
  events[events_count++] = (event){length, kind, end, flag, from, kind == SANDBAR_PACKET ? kept_length - from : 0};
}

/* A frame of that flag with such bytes; what a target takes of a packet goes to `kept`. */
static void put_frame(uint8_t flag, uint8_t reserved, const uint8_t *bytes, size_t count) {
  size_t from = events_count == 0 ? 0 : events[events_count - 1].from + events[events_count - 1].length;
  put_head(flag, reserved, count);
  if (count > 0) memcpy(stream + length, bytes, count);
  length += count;
  for (size_t k = 0; flag <= 2 && k < count; k += 1)
    if (kept_length - from < SANDBAR_MAX_PACKET && (kept_length > from || bytes[k] >= 32)) kept[kept_length++] = bytes[k];
  if (flag <= 1) ended(SANDBAR_PACKET, flag, 0);
  else if (flag == 0x30 || flag == 0x31) ended(SANDBAR_TIME, 0, 0);
  else if (flag != 2) ended(SANDBAR_BRIDGE, 0, flag);
}

/* A frame of each kind: a packet in EOP and in EEP, in pieces with a path in front and a time code and a bridge's frame between, of no
 * bytes, of a path alone; time codes; frames for a bridge, also of no bytes; a reserved byte that is not 0. */
static void put_each(void) {
  const uint8_t path[] = {1, 31, 0}, some[] = {0xFE, 1, 2, 3, 0}, others[] = {32, 31, 30}, time[] = {5, 0};
  put_frame(0, 0, some, sizeof some);
  put_frame(1, 7, others, sizeof others);
  put_frame(2, 0, path, sizeof path);
  put_frame(0x30, 0, time, sizeof time);
  put_frame(2, 0, some, sizeof some);
  put_frame(0x40, 0, some, sizeof some);
  put_frame(2, 0, NULL, 0);
  put_frame(0, 0, others, sizeof others);
  put_frame(0, 0, NULL, 0);
  put_frame(0x31, 0xFF, time, sizeof time);
  put_frame(0x30, 0, NULL, 0);
  put_frame(1, 0, path, sizeof path);
  put_frame(0x38, 0, NULL, 0);
  put_frame(0xFF, 0, others, sizeof others);
  put_frame(3, 0, others, sizeof others);
  put_frame(0, 0, some, sizeof some);
}

/* ---- taking */

static sandbar_frames frames;
static uint8_t packet[ROOM];

static int is_untouched(size_t from) {
  for (size_t k = from; k < ROOM; k += 1)
    if (packet[k] != 0xEE) return 0;
  return 1;
}

static sandbar_came take(const uint8_t *bytes, size_t count) {
  sandbar_came came = {0x1122334455667788u, 0x99AABBCCu, 0xDD, 0xEE, 0xFF, 0xAA};
  memset(packet, 0xEE, sizeof packet);
  if (sandbar_frames_take(&frames, bytes, count, packet, sizeof packet, &came) != SANDBAR_OK || came.unused != 0) exit(EXIT_FAILURE);
  add(came.taken), add(came.length), add(came.kind), add(came.end), add(came.flag);
  for (size_t k = 0; k < came.length; k += 1) add(packet[k]);
  return came;
}

/* Whether a call from `at` on with so many bytes took and told what is due. */
static int is_due(const sandbar_came *came, size_t at, size_t count, size_t *next) {
  const event *due = *next < events_count && events[*next].ends <= at + count ? &events[*next] : NULL;
  if (due == NULL)
    return came->taken == count && came->kind == SANDBAR_NOTHING && came->length == 0 && came->end == 0 && came->flag == 0 &&
           is_untouched(0);
  *next += 1;
  return came->taken == due->ends - at && came->kind == due->kind && came->length == due->length && came->end == due->end &&
         came->flag == due->flag && memcmp(packet, kept + due->from, due->length) == 0 && is_untouched(due->length);
}

/* Takes the stream in parts that end at each `cut` that is asked for; whether all came as it is due. */
static int reads(size_t (*part)(size_t at)) {
  size_t next = 0;
  int are_due = 1;
  if (sandbar_frames_open(&frames) != SANDBAR_OK) exit(EXIT_FAILURE);
  for (size_t at = 0; at < length;) {
    size_t to = at + part(at);
    while (at < to) {
      sandbar_came came = take(stream + at, to - at);
      are_due &= is_due(&came, at, to - at, &next);
      if (came.taken == 0) exit(EXIT_FAILURE);
      at += (size_t)came.taken;
    }
  }
  are_due &= next == events_count;
  return are_due & (sandbar_frames_close(&frames) == SANDBAR_OK);
}

static size_t cut_at;

static size_t whole(size_t at) { return length - at; }
static size_t one(size_t at) {
  (void)at;
  return 1;
}
static size_t two(size_t at) { return at < cut_at ? cut_at - at : length - at; }
static size_t random_part(size_t at) {
  uint32_t is_rest = any(4) == 0;
  size_t most = is_rest ? length : 1 + any(40);
  return most < length - at ? most : length - at;
}

static void cuts(void) {
  begin();
  put_each();
  holds(reads(whole), "each kind, at once");
  holds(reads(one), "each kind, byte by byte");
  int are_due = 1;
  for (cut_at = 1; cut_at < length; cut_at += 1) are_due &= reads(two);
  holds(are_due, "each kind, cut at every byte");
}

/* Packets of as many bytes as one has at most, and of more. */
static void long_packets(void) {
  static uint8_t bytes[70000];
  for (size_t k = 0; k < sizeof bytes; k += 1) bytes[k] = (uint8_t)(32 + any(200));
  begin();
  put_frame(0, 0, bytes, SANDBAR_MAX_PACKET);
  put_frame(0, 0, bytes, SANDBAR_MAX_PACKET + 1);
  put_frame(1, 0, bytes, sizeof bytes);
  put_frame(2, 0, bytes, 4199);
  put_frame(2, 0, bytes, 3);
  put_frame(0, 0, bytes, 1);
  put_frame(0x50, 0, bytes, sizeof bytes);
  put_frame(0, 0, bytes, 5);
  holds(reads(whole), "long packets, at once");
  holds(reads(one), "long packets, byte by byte");
  holds(reads(random_part), "long packets, cut anyhow");
}

static void random_streams(int count) {
  static uint8_t bytes[5000];
  int are_due = 1;
  for (int k = 0; k < count; k += 1) {
    begin();
    for (uint32_t frame = 0; frame < 30; frame += 1) {
      static const uint8_t flags[] = {0, 1, 2, 2, 0x30, 0x31, 0x40, 0xC8};
      uint32_t is_long = any(8) == 0, size = is_long ? any(sizeof bytes) : any(30);
      for (uint32_t at = 0; at < size; at += 1) {
        uint32_t below = any(2) ? 256 : 64;
        bytes[at] = (uint8_t)any(below);
      }
      uint8_t flag = flags[any(sizeof flags)], reserved = (uint8_t)any(256);
      put_frame(flag, reserved, bytes, size);
    }
    are_due &= reads(random_part);
    are_due &= reads(random_part);
  }
  holds(are_due, "random frames, cut anyhow");
}

/* A frame that says that it has more bytes than there are: they are read away, and none is kept past 4,200. */
static void endless(void) {
  static const uint8_t zeros[60000];
  begin();
  put_head(2, 0, UINT64_MAX);
  stream[2] = stream[3] = 0xFF; /* of the ten bytes the two before those of 64 bits */
  if (sandbar_frames_open(&frames) != SANDBAR_OK) exit(EXIT_FAILURE);
  int is_quiet = take(stream, length).kind == SANDBAR_NOTHING;
  for (int k = 0; k < 20; k += 1) {
    sandbar_came came = take(zeros, sizeof zeros);
    is_quiet &= came.kind == SANDBAR_NOTHING && came.taken == sizeof zeros;
  }
  holds(is_quiet, "a frame of more bytes than come");
  holds(sandbar_frames_close(&frames) == SANDBAR_OK, "closed within a frame");
}

static void codes(void) {
  const uint8_t bytes[SANDBAR_FRAME_HEAD + 1] = {0, 0, 0, 0, 0, 0, 0, 0, 0, 0, 0, 1, 0xFE};
  const sandbar_came before = {1, 2, 3, 4, 5, 6};
  sandbar_came came = before;
  memset(packet, 0xEE, sizeof packet);
  holds(sandbar_frames_take(&frames, bytes, sizeof bytes, packet, 0, &came) == SANDBAR_NO_NODE, "not open, and no room");
  holds(sandbar_frames_close(&frames) == SANDBAR_NO_NODE, "not open, to close");
  holds(frames.inside == 0 && frames.live == 0, "not open afterwards");
  holds(sandbar_frames_open(&frames) == SANDBAR_OK, "opened");
  holds(take(bytes, 0).taken == 0, "no bytes");
  holds(take(bytes, 5).taken == 5, "five bytes of a head");
  holds(sandbar_frames_open(&frames) == SANDBAR_IS_OPEN, "opened twice");
  memset(packet, 0xEE, sizeof packet);
  for (size_t room = 0; room < SANDBAR_MAX_PACKET; room += SANDBAR_MAX_PACKET - 1)
    holds(sandbar_frames_take(&frames, bytes + 5, sizeof bytes - 5, packet, room, &came) == SANDBAR_NO_ROOM, "no room");
  holds(came.taken == before.taken && came.length == before.length && came.kind == before.kind && came.end == before.end &&
            came.flag == before.flag && is_untouched(0), "where there was a code nothing was written");
  holds(sandbar_frames_take(&frames, bytes + 5, sizeof bytes - 5, packet, SANDBAR_MAX_PACKET, &came) == SANDBAR_OK, "room enough");
  holds(came.kind == SANDBAR_PACKET && came.length == 1 && packet[0] == 0xFE && is_untouched(1), "and nothing was taken before");

  sandbar_frames moved = frames, others = {0};
  sandbar_node node;
  memcpy(&node, &moved, sizeof node);
  sandbar_served served;
  holds(sandbar_serve(&node, 0, bytes, 1, SANDBAR_EOP, packet, sizeof packet, &served) == SANDBAR_NO_NODE, "a reader is no node");
  holds(sandbar_close(&node) == SANDBAR_NO_NODE, "nor is it closed as one");
  others.live = 937; /* of a node */
  holds(sandbar_frames_take(&others, bytes, 1, packet, sizeof packet, &came) == SANDBAR_NO_NODE, "a node is no reader");
  holds(sandbar_frames_close(&others) == SANDBAR_NO_NODE, "nor is it closed as one");
  others.live = 0;
  holds(sandbar_frames_open(&others) == SANDBAR_OK, "another beside it");
  frames = others;
  holds(take(bytes, 6).taken == 6, "six bytes");
  frames = moved;
  holds(take(bytes, sizeof bytes).kind == SANDBAR_PACKET, "which the first knows nothing of");
  holds(sandbar_frames_close(&frames) == SANDBAR_OK, "closed");
  holds(sandbar_frames_close(&frames) == SANDBAR_NO_NODE, "closed twice");
  holds(sandbar_frames_take(&frames, bytes, 1, packet, sizeof packet, &came) == SANDBAR_NO_NODE, "closed, and taken from");
  holds(sandbar_frames_close(&others) == SANDBAR_OK, "the other closed");
  holds(sandbar_frames_open(&frames) == SANDBAR_OK && sandbar_frames_close(&frames) == SANDBAR_OK, "opened again");
}

static void heads(void) {
  static const uint32_t lengths[] = {0, 1, 255, 256, 65535, SANDBAR_MAX_REPLY, 0x01020304u, 0xFFFFFFFFu};
  for (size_t k = 0; k < sizeof lengths / sizeof *lengths; k += 1) {
    uint8_t head[SANDBAR_FRAME_HEAD + 2];
    memset(head, 0xEE, sizeof head);
    sandbar_frames_head(lengths[k], head);
    begin();
    put_head(0, 0, lengths[k]);
    holds(memcmp(head, stream, SANDBAR_FRAME_HEAD) == 0 && head[12] == 0xEE && head[13] == 0xEE, "the head of a reply");
  }
}

int main(void) {
  cuts();
  long_packets();
  random_streams(20);
  endless();
  codes();
  heads();
  printf("frames: %d checks, %d failed, sum %08lx%08lx\n", checks, failures, (unsigned long)(sum >> 32), (unsigned long)(sum & 0xFFFFFFFF));
  return failures == 0 ? EXIT_SUCCESS : EXIT_FAILURE;
}
