/**
 * @file sandbarstove_text.h
 * A text for each ::sandbar_code. `tools/header` makes it of the library's own comments.
 */
#ifndef SANDBARSTOVE_TEXT_H
#define SANDBARSTOVE_TEXT_H

#include "sandbarstove.h"

/** `inline`, which C89 has not. */
#ifndef SANDBAR_INLINE
#if defined(__GNUC__)
#define SANDBAR_INLINE __inline__
#else
#define SANDBAR_INLINE inline
#endif
#endif

/** The meaning of a code, in a few words. */
static SANDBAR_INLINE const char *sandbar_text(uint32_t code) {
  switch (code) {
    case SANDBAR_OK: return "it was done";
    case SANDBAR_NO_MEMORY: return "memory was refused";
    case SANDBAR_NO_NODE: return "the node, or the reader of frames, is not open";
    case SANDBAR_BAD_CONFIG: return "ports, banks or a journal's room are outside their limits";
    case SANDBAR_BAD_MAPS: return "the maps are none that a node may have";
    case SANDBAR_BAD_IMAGE: return "the bytes are no image";
    case SANDBAR_REFUSED: return "the verifier refuses the program";
    case SANDBAR_NO_PORT: return "there is no such port";
    case SANDBAR_NO_BANK: return "there is no such bank";
    case SANDBAR_BAD_END: return "the end of the packet is neither of the two";
    case SANDBAR_TOO_LONG: return "the packet has too many bytes";
    case SANDBAR_NO_ROOM: return "the room is too small, or bytes lie outside the bank";
    case SANDBAR_NO_ENTRY: return "the journal has no such entry";
    case SANDBAR_IS_OPEN: return "the node, or the reader of frames, is open";
    case SANDBAR_NO_CELL: return "the node has no such map or cell";
    case SANDBAR_DAMAGED: return "what memory holds is not what was written there: a bit of it flipped";
    case SANDBAR_NO_PART: return "the number is no part of a node that is scrubbed";
    case SANDBAR_BAD_SLOT: return "there is no such slot: a slot is 0 to 3";
    case SANDBAR_NO_GENERATION: return "no generation is left: 4,294,967,295 programs were published";
    default: return "no code of this library";
  }
}

#endif
