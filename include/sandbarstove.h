/**
 * @file sandbarstove.h
 * A SpaceWire RMAP target (ECSS-E-ST-50-52C) whose commands are judged by verified BPF programs.
 *
 * The library keeps no state of its own. All that a target has is in its ::sandbar_node, and two nodes share nothing. The
 * library starts no threads, takes no locks, reads no clock and opens no files. It calls memcpy, memmove and memset of the C
 * library. It also calls the heap of sandbarstove_heap.h, which your program has: link/heap.c has one over malloc, realloc
 * and free.
 * One node takes one call at a time. If tasks share a node, put a lock round each call. No call is for interrupt or signal
 * handlers.
 *
 * Each function returns a ::sandbar_code, except ::sandbar_crc, ::sandbar_version and ::sandbar_frames_head. The code is
 * that of the first test that fails, in the order in which the function names them. sandbarstove_text.h has a text for
 * each. At any code except ::SANDBAR_OK the call did nothing. It then wrote nothing, except @c why if the function says so.
 * ::sandbar_scrub is the one call that does its work and returns ::SANDBAR_NO_MEMORY.
 *
 * A struct that a call writes has no bytes beside its fields: those between or after them are fields that are 0. So if a
 * struct is copied to a link, its bytes are what the call wrote, and nothing else.
 *
 * No pointer may be null, also if its length is 0. A pointer with a length must point to that many bytes or structs. Memory
 * that a call writes must not overlap anything else that is passed to it.
 */
#ifndef SANDBARSTOVE_H
#define SANDBARSTOVE_H

#include <stddef.h>
#include <stdint.h>

/** The number of this header and of sandbarstove_frames.h. It rises with each change of a call, a struct or a number. */
#define SANDBAR_VERSION 6

/** For compilers that know it: the pointers of a call are not null, and its code is looked at. */
#ifndef SANDBAR_CALL
#if defined(__GNUC__)
#define SANDBAR_CALL __attribute__((nonnull, warn_unused_result))
#else
#define SANDBAR_CALL
#endif
#endif

/** The same, for a call whose code need not be looked at. */
#ifndef SANDBAR_LAST_CALL
#if defined(__GNUC__)
#define SANDBAR_LAST_CALL __attribute__((nonnull))
#else
#define SANDBAR_LAST_CALL
#endif
#endif

#ifdef __cplusplus
extern "C" {
#endif

/** What a call comes to. */
enum sandbar_code {
  SANDBAR_OK = 0,
  SANDBAR_NO_MEMORY = 1,  /**< memory was refused */
  SANDBAR_NO_NODE = 2,    /**< the node, or the reader of frames, is not open */
  SANDBAR_BAD_CONFIG = 3, /**< ports, banks or a journal's room are outside their limits */
  SANDBAR_BAD_MAPS = 4,   /**< over 8 maps or 256 cells, a map without cells, or a @c peak that is neither 0 nor 1 */
  SANDBAR_BAD_IMAGE = 5,  /**< the bytes are no image: @c why has the first fault, 1 to 7, and its slot */
  SANDBAR_REFUSED = 6,    /**< the verifier refuses the program: @c why has its number, 1 to 18, and the slot */
  SANDBAR_NO_PORT = 7,    /**< there is no such port */
  SANDBAR_NO_BANK = 8,    /**< there is no such bank */
  SANDBAR_BAD_END = 9,    /**< the end is neither ::SANDBAR_EOP nor ::SANDBAR_EEP */
  SANDBAR_TOO_LONG = 10,  /**< the packet has over ::SANDBAR_MAX_PACKET bytes */
  SANDBAR_NO_ROOM = 11,   /**< the room for a reply or a packet is too small, or bytes lie outside the bank */
  SANDBAR_NO_ENTRY = 12,  /**< the journal has no such entry */
  SANDBAR_IS_OPEN = 13,   /**< the node, or the reader of frames, is open */
  SANDBAR_NO_CELL = 14,   /**< the node has no such map or cell */
  SANDBAR_DAMAGED = 15,   /**< a bit of memory flipped: of the entry, of the reader of frames, or of the node's sizes */
  SANDBAR_NO_PART = 16,   /**< the number is no ::sandbar_part */
  SANDBAR_BAD_SLOT = 17,  /**< there is no such slot: a slot is 0 to 3 */
  SANDBAR_NO_GENERATION = 18 /**< no generation is left: 4,294,967,295 programs were published */
};

enum {
  SANDBAR_MAX_PACKET = 4200, /**< the most bytes of a packet that is served */
  SANDBAR_MAX_REPLY = 4121,  /**< the room that a reply needs */
  SANDBAR_MAX_BANKS = 8,
  SANDBAR_MAX_PORTS = 32
};

/** How a packet ends. */
enum sandbar_end { SANDBAR_EOP = 0, SANDBAR_EEP = 1 };

/** What became of a packet. */
enum sandbar_kind {
  SANDBAR_DISCARDED = 0, /**< it is no command; @c status is why, 1 to 4, and there is no reply */
  SANDBAR_ANSWERED = 1,  /**< a check of its header holds, or its slot was withdrawn (status 1); @c status is the reply's, and no program was run */
  SANDBAR_JUDGED = 2     /**< a program judged it; @c status is the reply's */
};

/** What a command asks for. */
enum sandbar_command {
  SANDBAR_NO_COMMAND = 0, /**< the packet is no command, or one whose code is unused */
  SANDBAR_READ = 1,
  SANDBAR_WRITE = 2,
  SANDBAR_RMW = 3 /**< read-modify-write */
};

/** A part of a node that is scrubbed. */
enum sandbar_part {
  SANDBAR_PROGRAMS = 0, /**< the programs of the slots */
  SANDBAR_SIZES = 1,    /**< the numbers of ports and banks, the range of each bank, and the cells of each map */
  SANDBAR_JOURNALS = 2, /**< the entries of the journals */
  SANDBAR_ALL = 3       /**< all of these */
};

/** The difference that the part of sizes finds. */
enum sandbar_difference {
  SANDBAR_SIZES_DIFFER = 1, /**< the sizes are others than in the opening: do not call the node again */
  SANDBAR_COUNT_DIFFERS = 2 /**< a number of ::sandbar_scrub_each changed: call it again; until then each packet has a scrub */
};

/** The finding of a scrub before a packet (::sandbar_scrub_each). */
enum sandbar_found {
  SANDBAR_UNSCRUBBED = 0, /**< no scrub was due before the packet */
  SANDBAR_WHOLE = 1,      /**< the program that judges the packet is as it was published */
  SANDBAR_MENDED = 2,     /**< it was damaged, and was made again of its image */
  SANDBAR_WITHDRAWN = 3,  /**< it was damaged and not mended: its slot is withdrawn */
  SANDBAR_NO_SLOT = 255   /**< the @c found_slot of a packet before which no scrub was due */
};

/** The place at which a command ended. */
enum sandbar_place {
  SANDBAR_NOWHERE = 0,  /**< no program judged it */
  SANDBAR_AT_BANK = 1,  /**< at the bank of its extended address */
  SANDBAR_AT_WINDOW = 2 /**< in the boot window, which stages and loads programs */
};

/**
 * One target. Zeros are a node that is not open. Only the library reads and writes its fields. Do not copy an open node:
 * if both copies are closed, the second close frees memory that is free. 16 bytes.
 */
typedef struct sandbar_node {
  uint64_t inside; /* the address of what it has (at 0) */
  uint32_t live;   /* at 8 */
  uint32_t unused; /* at 12; the C source has a check of `inside` here */
} sandbar_node;

/** One bank of memory, which commands read and write. 12 bytes. */
typedef struct sandbar_bank {
  uint32_t base; /**< the address of its first byte (at 0) */
  uint32_t size; /**< its bytes: 1 to 1,048,576, none after address FFFFFFFF (at 4) */
  uint32_t room; /**< how many entries its journal has room for: 1 to 65,536 (at 8) */
} sandbar_bank;

/** One map of cells, which programs share. 4 bytes. */
typedef struct sandbar_map {
  uint16_t cells; /**< 1 to 256; all maps together at most 256 (at 0) */
  uint16_t peak;  /**< 0: tickets are drawn from its cells; 1: a cell is the greatest number it was shown (at 2) */
} sandbar_map;

/** Why an image may not judge: the numbers that `rmapctl verify` prints, which docs/CODES.md explains. 4 bytes. */
typedef struct sandbar_why {
  uint16_t code; /**< (at 0) */
  uint16_t slot; /**< (at 2) */
} sandbar_why;

/**
 * The end of a packet, what it asked for, and what a scrub before it found. A command was carried out if @c kind is ::SANDBAR_JUDGED and @c status
 * is 0, and only then. Its header says what it asked for. For a packet that is no command these are 0. 40 bytes.
 */
typedef struct sandbar_served {
  uint64_t verdict;      /**< of the program that judged, 0 is yes; 0 if none did (at 0) */
  uint32_t generation;   /**< of that program: 0 for the first, then 1, 2 .. as they were loaded; 0 for none (at 8) */
  uint32_t reply_length; /**< how many bytes of @c reply are to be sent; 0: none (at 12) */
  uint32_t address;      /**< (at 16) */
  uint32_t length;       /**< its data length; of a read-modify-write half are data and half are the mask (at 20) */
  uint32_t room;         /**< at a bank: how many more entries its journal then has room for; else 0 (at 24) */
  uint8_t kind;          /**< ::sandbar_kind (at 28) */
  uint8_t status;        /**< (at 29) */
  uint8_t command;       /**< ::sandbar_command (at 30) */
  uint8_t place;         /**< ::sandbar_place (at 31) */
  uint8_t extended;      /**< its extended address: the number of the bank, or 255 for the boot window (at 32) */
  uint8_t found;         /**< ::sandbar_found, of a scrub before the packet (at 33) */
  uint8_t found_slot;    /**< the slot of the program that was scrubbed, or ::SANDBAR_NO_SLOT (at 34) */
  uint8_t unused;        /**< 0, as the one after it (at 35) */
  uint32_t unused_word;  /**< (at 36) */
} sandbar_served;

/**
 * What a scrub found. A bit a slot: 1 for slot 0, then 2, 4 and 8. A bit a bank: 1 for bank 0, then 2, 4 and so on. A part
 * that is not scrubbed is 0. 16 bytes.
 */
typedef struct sandbar_scrubbed {
  uint64_t first;    /**< the place of the first damaged entry of the first journal that has one (at 0) */
  uint8_t mended;    /**< a bit a slot: its program was damaged, and was made again of its image or of the one lent (at 8) */
  uint8_t withdrawn; /**< a bit a slot: its program was damaged and not mended (at 9) */
  uint8_t restored;  /**< 1: the image that was lent is now the program of slot 3, which was withdrawn; else 0 (at 10) */
  uint8_t sizes;     /**< ::sandbar_difference, or 0 (at 11) */
  uint8_t journals;  /**< a bit a bank: its journal has an entry that ::sandbar_entry_at calls damaged (at 12) */
  uint8_t unused;    /**< 0, as the one after it (at 13) */
  uint16_t unused_half; /**< (at 14) */
} sandbar_scrubbed;

/** An entry of a bank's journal, without its packet. 32 bytes. */
typedef struct sandbar_entry {
  uint64_t number;        /**< counts the entries of its port at this bank: 0, 1, 2 .. over all its journals (at 0) */
  uint64_t verdict;       /**< (at 8) */
  uint32_t generation;    /**< (at 16) */
  uint32_t packet_length; /**< (at 20) */
  uint8_t port;           /**< (at 24) */
  uint8_t status;         /**< (at 25) */
  uint8_t end;            /**< ::sandbar_end (at 26) */
  uint8_t unused;         /**< 0, as the one after it (at 27) */
  uint32_t unused_word;   /**< (at 28) */
} sandbar_entry;

/** The state of a bank's journal. 16 bytes. */
typedef struct sandbar_journal {
  uint64_t entries; /**< how many it has (at 0) */
  uint32_t loaded;  /**< how many programs were loaded into the node (at 8) */
  uint32_t unused;  /**< 0 (at 12) */
} sandbar_journal;

/**
 * Says whether the program of @p image may judge in a node with these maps. Codes: ::SANDBAR_BAD_MAPS,
 * ::SANDBAR_BAD_IMAGE, ::SANDBAR_REFUSED, and ::SANDBAR_NO_MEMORY if memory to look at the image is refused. It writes
 * @p why at all codes: zeros, except at ::SANDBAR_BAD_IMAGE and ::SANDBAR_REFUSED.
 *
 * In the C source this call first takes the memory of an instance, as ::sandbar_open does for a node that is not open. If
 * that memory is refused, the code is ::SANDBAR_NO_MEMORY, whatever else is wrong.
 */
SANDBAR_CALL
uint32_t sandbar_verify(const sandbar_map *maps, size_t map_count, const uint8_t *image, size_t image_length,
                        sandbar_why *why);

/**
 * Opens a node: banks of zeros, and in each of the four slots the program of @p image. Codes: ::SANDBAR_IS_OPEN, those
 * of ::sandbar_verify, ::SANDBAR_BAD_CONFIG, ::SANDBAR_NO_MEMORY.
 *
 * This takes all memory that the node's banks, journals, ports and cells need. It writes @p why at all codes except
 * ::SANDBAR_IS_OPEN, as ::sandbar_verify does. A node that is open stays as it is.
 *
 * @param address the node's logical address.
 * @param ports how many ports it has, 1 to 32.
 * @param banks 1 to 8 of them. The extended address of a bank is its place in the array.
 */
SANDBAR_CALL
uint32_t sandbar_open(sandbar_node *node, uint8_t address, uint8_t ports, const sandbar_bank *banks, size_t bank_count,
                      const sandbar_map *maps, size_t map_count, const uint8_t *image, size_t image_length,
                      sandbar_why *why);

/**
 * Publishes the program of @p image for a slot, without a packet. It has the next generation, and judges there from the next
 * command on; the generation of the first is 1. Call it before the first packet, as `rmapctl` does with each `[[publish]]` of a
 * node's file, or later, as the instrument. Stagings and load results stay as they are. Codes: ::SANDBAR_NO_NODE,
 * ::SANDBAR_BAD_SLOT, ::SANDBAR_BAD_IMAGE, ::SANDBAR_REFUSED, ::SANDBAR_NO_GENERATION, and ::SANDBAR_NO_MEMORY if memory for the
 * program is refused. It writes @p why at all codes except ::SANDBAR_NO_NODE, as ::sandbar_verify does.
 *
 * @param slot 0 for reads, 1 for writes, 2 for read-modify-writes, 3 for the boot window.
 */
SANDBAR_CALL
uint32_t sandbar_publish(sandbar_node *node, uint8_t slot, const uint8_t *image, size_t image_length, sandbar_why *why);

/** Ends a node, and gives back all its memory. Code: ::SANDBAR_NO_NODE. */
SANDBAR_LAST_CALL
uint32_t sandbar_close(sandbar_node *node);

/**
 * Serves a whole packet, as it came in at a port. The bytes to send are then the first @c reply_length of @p reply. The
 * rest of @p reply is as before. Codes: ::SANDBAR_NO_NODE, ::SANDBAR_DAMAGED, ::SANDBAR_NO_PORT, ::SANDBAR_BAD_END,
 * ::SANDBAR_TOO_LONG, ::SANDBAR_NO_ROOM, ::SANDBAR_NO_MEMORY.
 *
 * It returns ::SANDBAR_DAMAGED if ::sandbar_scrub_each is on and the part of sizes would find ::SANDBAR_SIZES_DIFFER. It does
 * so at each call until you close the node.
 *
 * It asks for memory once, for a copy of the packet, which the journal keeps. Loads of programs ask for more. If the copy
 * is refused, the packet was not served. If a load is refused memory, its reply says so (status 1).
 *
 * @param packet its first byte is the target's logical address.
 * @param reply room for ::SANDBAR_MAX_REPLY bytes.
 */
SANDBAR_CALL
uint32_t sandbar_serve(sandbar_node *node, uint8_t port, const uint8_t *packet, size_t packet_length, uint8_t end,
                       uint8_t *reply, size_t reply_room, sandbar_served *served);

/** Writes the state of a bank's journal. Codes: ::SANDBAR_NO_NODE, ::SANDBAR_NO_BANK. */
SANDBAR_CALL
uint32_t sandbar_journal_of(sandbar_node *node, uint8_t bank, sandbar_journal *journal);

/**
 * Reads the entry at a place of a bank's journal, 0 for the oldest, and copies its packet to the front of @p packet.
 * Codes: ::SANDBAR_NO_NODE, ::SANDBAR_NO_BANK, ::SANDBAR_NO_ENTRY, ::SANDBAR_DAMAGED, ::SANDBAR_NO_ROOM.
 */
SANDBAR_CALL
uint32_t sandbar_entry_at(sandbar_node *node, uint8_t bank, uint32_t place, uint8_t *packet, size_t packet_room,
                          sandbar_entry *entry);

/**
 * Begins a new journal with that room at a bank. The entries of the old one are gone, and their numbers go on. If the
 * journal of a bank is full, the bank carries no command out (status 1). So call this when ::sandbar_served has no more
 * @c room. Codes: ::SANDBAR_NO_NODE, ::SANDBAR_NO_BANK, ::SANDBAR_BAD_CONFIG, ::SANDBAR_NO_MEMORY.
 *
 * If the room is at most that of the old journal, it asks for no memory. Its code is then never ::SANDBAR_NO_MEMORY, and
 * it gives back the packets of the entries. For more room it asks while the old journal is still there.
 */
SANDBAR_CALL
uint32_t sandbar_rotate(sandbar_node *node, uint8_t bank, uint32_t room);

/**
 * Reads bytes of a bank, as the instrument does beside all commands. Codes: ::SANDBAR_NO_NODE, ::SANDBAR_NO_BANK,
 * ::SANDBAR_NO_ROOM if a byte lies outside the bank. A length of 0 wants an address in the bank, or the one after its
 * last.
 */
SANDBAR_CALL
uint32_t sandbar_peek(sandbar_node *node, uint8_t bank, uint32_t address, uint8_t *bytes, size_t length);

/**
 * Puts bytes at an address of a bank without a command, as the instrument does. No entry says so, and the call begins a
 * new journal with that room: read the old entries first. Codes: ::SANDBAR_NO_NODE, ::SANDBAR_NO_BANK, ::SANDBAR_NO_ROOM
 * as ::sandbar_peek, ::SANDBAR_BAD_CONFIG, ::SANDBAR_NO_MEMORY. It asks for memory only if ::sandbar_rotate would.
 */
SANDBAR_CALL
uint32_t sandbar_poke(sandbar_node *node, uint8_t bank, uint32_t address, const uint8_t *bytes, size_t length,
                      uint32_t room);

/**
 * Writes the word of a cell of a map, both counted from 0. In a fresh node it is 0. It is how many tickets were drawn from
 * the cell, modulo 2^64. In a peak map it is the greatest number that was shown to the cell. The tickets that a quota has
 * left are its limit minus this word, or none if the word is above the limit. The word also counts commands for which
 * none was left. Codes: ::SANDBAR_NO_NODE, ::SANDBAR_NO_CELL.
 */
SANDBAR_CALL
uint32_t sandbar_word(sandbar_node *node, uint8_t map, uint16_t cell, uint64_t *word);

/**
 * Compares a part of the node, a ::sandbar_part, with what was kept of it.
 *
 * The part of programs compares each slot's program, as it is run, with the sum that was kept when it was published. If a
 * program differs, it is made again of its image, in its own memory. If it has then that sum, it has the next generation; a program
 * that several slots share is so mended for each of them. Else the program of @p image is published for the slot, if the verifier
 * accepts it and it has that sum. This asks for memory as a load does. Else the slot is withdrawn: each command for it is answered by
 * a general error (status 1, ::SANDBAR_ANSWERED). Each later scrub tries it again, and a load publishes another program. If slot 3 is
 * withdrawn, no load is permitted: so the program of @p image is then published for it, if it may judge. An image of no bytes is
 * none, and no memory is asked for then.
 *
 * If a slot is withdrawn since memory was refused, the code is ::SANDBAR_NO_MEMORY. The rest was done, and @p scrubbed was
 * written. Call it again when there is memory.
 *
 * The parts of sizes and journals report what differs, and change nothing. Journals take as long as reading all entries.
 * Codes: ::SANDBAR_NO_NODE, ::SANDBAR_NO_PART, ::SANDBAR_NO_MEMORY.
 */
SANDBAR_CALL
uint32_t sandbar_scrub(sandbar_node *node, uint8_t part, const uint8_t *image, size_t image_length,
                       sandbar_scrubbed *scrubbed);

/**
 * From now on scrubs the program that judges a packet, before each packet of that number: 1 is each, 2 each second one. At 0,
 * with which a node is opened, it scrubs none. If that program is damaged, the programs of all slots are scrubbed, with no image that
 * is lent. If no program judges the packet before which a scrub is due, the scrub stays due until a packet comes that one judges.
 * Before each packet the sizes are compared, too (::sandbar_serve). @c found and @c found_slot of ::sandbar_served say what a scrub
 * found. Codes:
 * ::SANDBAR_NO_NODE.
 */
SANDBAR_CALL
uint32_t sandbar_scrub_each(sandbar_node *node, uint32_t each);

/** The CRC of RMAP, for packets that are made. */
SANDBAR_CALL
uint8_t sandbar_crc(const uint8_t *bytes, size_t length);

/** The ::SANDBAR_VERSION that the library was made with. If the header's number is another, do not call the library. */
uint32_t sandbar_version(void);

#ifdef __cplusplus
}
#endif

#endif
