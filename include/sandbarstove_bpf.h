/**
 * @file sandbarstove_bpf.h
 * Programs in C that judge commands. A compiler for BPF makes an object of one. `tools/bpf` makes the text of a program of
 * that. The section "In C" of docs/POLICIES.md says how, and which C can be one. For the workstation the same file is a
 * function that a test calls, and the helpers are the test's.
 *
 * Such a program is
 *
 *     uint64_t authorise(const struct sandbar_front *front, const struct sandbar_tail *tail, uint64_t port);
 *
 * The front and the tail are the parts of a command's header (ECSS-E-ST-50-52C, 5.3 to 5.5) before and after the reply
 * address. The port, 0 to 31, is the one at which the command came in. The function gives the verdict.
 *
 * If `SANDBAR_SHORT_NAMES` is defined before this file is included, the names are the short ones beside the long ones here:
 * `struct front`, `YES`, `ticket`, `COUNTERS`.
 */
#ifndef SANDBARSTOVE_BPF_H
#define SANDBARSTOVE_BPF_H

#if (defined(__bpf__) || defined(__BPF__)) && __STDC_HOSTED__
/* A system's <stdint.h> asks for headers that BPF has not. With -ffreestanding it is the compiler's own. */
typedef __UINT8_TYPE__ uint8_t;
typedef __UINT16_TYPE__ uint16_t;
typedef __UINT32_TYPE__ uint32_t;
typedef __UINT64_TYPE__ uint64_t;
typedef __INT8_TYPE__ int8_t;
typedef __INT16_TYPE__ int16_t;
typedef __INT32_TYPE__ int32_t;
typedef __INT64_TYPE__ int64_t;
#else
#include <stdint.h>
#endif

#ifdef SANDBAR_SHORT_NAMES
#define SANDBAR_NAME(name, short_name) short_name
#define COUNTERS SANDBAR_COUNTERS
#define PEAKS SANDBAR_PEAKS
#define AGAIN SANDBAR_AGAIN
#else
#define SANDBAR_NAME(name, short_name) name
#endif

#ifdef __cplusplus
#define SANDBAR_CAST(type, value) static_cast<type>(value)
#define SANDBAR_HELPER(type, number) reinterpret_cast<type>(number)
#define SANDBAR_ASSERT static_assert
extern "C" {
#else
#define SANDBAR_CAST(type, value) ((type)(value))
#define SANDBAR_HELPER(type, number) ((type)(number))
#define SANDBAR_ASSERT _Static_assert
#endif

/** The verdicts that have a status of their own; every other number is SANDBAR_NOT_AUTHORISED. */
enum { SANDBAR_YES = 0, SANDBAR_INVALID_KEY = 3, SANDBAR_NOT_AUTHORISED = 10, SANDBAR_INVALID_TARGET = 12 };

/** The kinds of commands; the last is a read-modify-write. */
enum { SANDBAR_KIND_READ, SANDBAR_KIND_WRITE, SANDBAR_KIND_RMW };

#ifdef SANDBAR_SHORT_NAMES
enum {
  YES = SANDBAR_YES,
  INVALID_KEY = SANDBAR_INVALID_KEY,
  NOT_AUTHORISED = SANDBAR_NOT_AUTHORISED,
  INVALID_TARGET = SANDBAR_INVALID_TARGET
};
enum { READ = SANDBAR_KIND_READ, WRITE = SANDBAR_KIND_WRITE, RMW = SANDBAR_KIND_RMW };
#endif

/** The first four bytes of a command's header. */
struct SANDBAR_NAME(sandbar_front, front) {
  uint8_t target; /**< target logical address */
  uint8_t protocol;
  uint8_t instruction;
  uint8_t key;
};

/** Its last twelve bytes. In fields of several bytes the most significant byte is the first. */
struct SANDBAR_NAME(sandbar_tail, tail) {
  uint8_t initiator; /**< initiator logical address */
  uint8_t transaction[2];
  uint8_t extended; /**< extended address: the bank, or FF for the boot window */
  uint8_t address[4];
  uint8_t length[3]; /**< data length in bytes */
  uint8_t crc;
};

/** The program. It may have another name. */
uint64_t authorise(const struct SANDBAR_NAME(sandbar_front, front) * front,
                   const struct SANDBAR_NAME(sandbar_tail, tail) * tail, uint64_t port);

/** A map of cells. */
struct SANDBAR_NAME(sandbar_cell_map, map) {
  uint32_t number; /**< its place in `--maps`, from 0 */
  uint32_t cells;
  uint32_t peak; /**< 0: a counter map, 1: a peak map */
};

/**
 * A counter map, or a peak map, of a node. All programs of one node must name the same maps, also those that one of them
 * does not use. Each number from 0 on is there once.
 */
#define SANDBAR_COUNTERS(number, name, cells) SANDBAR_MAP(number, name, cells, 0)
#define SANDBAR_PEAKS(number, name, cells) SANDBAR_MAP(number, name, cells, 1)
#define SANDBAR_MAP(number, name, cells, peak) \
  struct SANDBAR_NAME(sandbar_cell_map, map) name __attribute__((section(".maps"), used)) = {number, cells, peak}

/*
 * The helpers. The key of a cell is its place in its map, from 0, and always below its cells.
 *
 * The helper count gives the cell's word. The helper ticket gives the word of a cell of a counter map, and adds 1 to it. The
 * helper peak raises the cell of a peak map to the number if that is greater, and gives the greater of both.
 */
#if defined(__bpf__)
typedef uint64_t (*sandbar_cell_helper)(struct SANDBAR_NAME(sandbar_cell_map, map) * map, uint64_t key);
typedef uint64_t (*sandbar_peak_helper)(struct SANDBAR_NAME(sandbar_cell_map, map) * map, uint64_t key, uint64_t number);
static const sandbar_cell_helper SANDBAR_NAME(sandbar_count, count) = SANDBAR_HELPER(sandbar_cell_helper, 1);
static const sandbar_cell_helper SANDBAR_NAME(sandbar_ticket, ticket) = SANDBAR_HELPER(sandbar_cell_helper, 2);
static const sandbar_peak_helper SANDBAR_NAME(sandbar_peak, peak) = SANDBAR_HELPER(sandbar_peak_helper, 3);
#else
#if defined(__BPF__)
#define SANDBAR_NUMBERED(number) __attribute__((kernel_helper(number)))
#else
#define SANDBAR_NUMBERED(number)
#endif
uint64_t SANDBAR_NAME(sandbar_count, count)(struct SANDBAR_NAME(sandbar_cell_map, map) * map, uint64_t key) SANDBAR_NUMBERED(1);
uint64_t SANDBAR_NAME(sandbar_ticket, ticket)(struct SANDBAR_NAME(sandbar_cell_map, map) * map, uint64_t key) SANDBAR_NUMBERED(2);
uint64_t SANDBAR_NAME(sandbar_peak, peak)(struct SANDBAR_NAME(sandbar_cell_map, map) * map, uint64_t key, uint64_t number)
    SANDBAR_NUMBERED(3);
#endif

/** Before each other function: a program here calls no function, so the compiler must put its body in place of the call. */
#define SANDBAR_ALWAYS_INLINE static __inline__ __attribute__((__always_inline__))

/**
 * The end of a loop: takes 1 from the counter, and goes back to the label unless it is 0 then. The counter is a `uint64_t`
 * that is 1 to 4,096 at the label's first time, and that nothing else in the loop writes. Here the compiler forgets what it
 * knows of the counter, so that it keeps the loop in this form.
 */
#if defined(__bpf__)
#define SANDBAR_AGAIN(counter, label)                                  \
  do {                                                                 \
    SANDBAR_ASSERT(sizeof(counter) == 8, "the counter is a uint64_t"); \
    __asm__ volatile("%0 += -1" : "+r"(counter));                      \
    if (counter) goto label;                                           \
  } while (0)
#else
#define SANDBAR_AGAIN(counter, label) \
  do {                                \
    if (--(counter)) goto label;      \
  } while (0)
#endif

/** The kind of a command. */
SANDBAR_ALWAYS_INLINE int SANDBAR_NAME(sandbar_kind_of, kind_of)(const struct SANDBAR_NAME(sandbar_front, front) * front) {
  if (front->instruction & 0x20) return SANDBAR_KIND_WRITE;
  return front->instruction & 0x10 ? SANDBAR_KIND_RMW : SANDBAR_KIND_READ;
}

/** Its address. */
SANDBAR_ALWAYS_INLINE uint32_t SANDBAR_NAME(sandbar_address_of, address_of)(const struct SANDBAR_NAME(sandbar_tail, tail) * tail) {
  const uint8_t *a = tail->address;
  return SANDBAR_CAST(uint32_t, a[0]) << 24 | SANDBAR_CAST(uint32_t, a[1]) << 16 | SANDBAR_CAST(uint32_t, a[2]) << 8 | a[3];
}

/** Its data length; of a read-modify-write half are data and half are the mask. */
SANDBAR_ALWAYS_INLINE uint32_t SANDBAR_NAME(sandbar_length_of, length_of)(const struct SANDBAR_NAME(sandbar_tail, tail) * tail) {
  const uint8_t *n = tail->length;
  return SANDBAR_CAST(uint32_t, n[0]) << 16 | SANDBAR_CAST(uint32_t, n[1]) << 8 | n[2];
}

#ifdef __cplusplus
}
#endif

#endif
