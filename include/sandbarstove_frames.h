/**
 * @file sandbarstove_frames.h
 * Packets in frames over a stream of bytes, as bridges between SpaceWire and Ethernet write them (SSDTP2). They are for a
 * target that has a serial line, a TCP connection or such a bridge. docs/LIVE.md (Frames) has the bytes of a frame.
 *
 * A ::sandbar_frames takes the bytes of a stream, however they are cut, and gives the packets that the frames carry. It
 * knows no node: pass what it gives to ::sandbar_serve, and send what that gives. Only ::sandbar_frames_open asks for
 * memory. The rules of sandbarstove.h on calls, codes, pointers and tasks are true of these calls too, with a
 * ::sandbar_frames in place of a node.
 */
#ifndef SANDBARSTOVE_FRAMES_H
#define SANDBARSTOVE_FRAMES_H

#include "sandbarstove.h"

#ifdef __cplusplus
extern "C" {
#endif

enum { SANDBAR_FRAME_HEAD = 12 /**< the bytes before those of a packet in its frame */ };

/** What came. */
enum sandbar_came_kind {
  SANDBAR_NOTHING = 0, /**< nothing whole: all bytes were taken, and more are to come */
  SANDBAR_PACKET = 1,  /**< a packet, of one frame or of several */
  SANDBAR_TIME = 2,    /**< a time code */
  SANDBAR_BRIDGE = 3   /**< a frame for a bridge, which there is not here */
};

/**
 * A reader of frames. Zeros are one that is not open. Only the library reads and writes its fields. Do not copy an open
 * reader: if both copies are closed, the second close frees memory that is free. 16 bytes.
 */
typedef struct sandbar_frames {
  uint64_t inside; /* the address of what it has (at 0) */
  uint32_t live;   /* at 8 */
  uint32_t unused; /* at 12; the C source has a check of `inside` here */
} sandbar_frames;

/** What bytes brought. 16 bytes. */
typedef struct sandbar_came {
  uint64_t taken;  /**< how many bytes were taken (at 0) */
  uint32_t length; /**< of a packet: how many bytes it has; else 0 (at 8) */
  uint8_t kind;    /**< ::sandbar_came_kind (at 12) */
  uint8_t end;     /**< of a packet: ::sandbar_end; else 0 (at 13) */
  uint8_t flag;    /**< of a frame for a bridge: its first byte; else 0 (at 14) */
  uint8_t unused;  /**< 0 (at 15) */
} sandbar_came;

/**
 * Opens a reader that has read nothing. Codes: ::SANDBAR_IS_OPEN, ::SANDBAR_NO_MEMORY.
 *
 * This takes all memory that it needs, with room for the longest packet. A reader that is open stays as it is.
 */
SANDBAR_CALL
uint32_t sandbar_frames_open(sandbar_frames *frames);

/**
 * Takes bytes of the stream up to the first with which something came whole, or all of them if nothing did. A packet is
 * then in the first @c length bytes of @p packet, and the rest of @p packet is as before. Codes: ::SANDBAR_NO_NODE,
 * ::SANDBAR_DAMAGED, ::SANDBAR_NO_ROOM.
 *
 * If a bit of the reader flipped since the last call, the code is ::SANDBAR_DAMAGED, and no byte is taken. It is so at each later call,
 * too. Close the reader and the connection, and open both again: nothing in a frame marks the beginning of the next one.
 *
 * Bytes below 32 at the front of a packet are the path that a router takes away: the reader drops them. If a packet has
 * over ::SANDBAR_MAX_PACKET bytes, it gives the first, and each check of a target answers by those as by all. It reads each
 * frame to its end, however many bytes that has.
 *
 * @param packet room for ::SANDBAR_MAX_PACKET bytes.
 */
SANDBAR_CALL
uint32_t sandbar_frames_take(sandbar_frames *frames, const uint8_t *bytes, size_t length, uint8_t *packet,
                             size_t packet_room, sandbar_came *came);

/** Ends a reader, and gives back all its memory. The packet that it has not ended is gone. Code: ::SANDBAR_NO_NODE. */
SANDBAR_LAST_CALL
uint32_t sandbar_frames_close(sandbar_frames *frames);

/**
 * Writes the head of the frame of a reply, ::SANDBAR_FRAME_HEAD bytes. Send these, and then the reply. The packet of that
 * frame has @p reply_length bytes and ends in EOP.
 */
SANDBAR_LAST_CALL
void sandbar_frames_head(uint32_t reply_length, uint8_t *head);

#ifdef __cplusplus
}
#endif

#endif
