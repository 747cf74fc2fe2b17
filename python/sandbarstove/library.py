"""The calls of `sandbarstove.h` over a shared object, by ctypes."""
from __future__ import annotations

import os
from ctypes import CDLL, POINTER, Structure, c_char_p, c_size_t, c_uint8, c_uint16, c_uint32, c_uint64

#: The SANDBAR_VERSION of the header for which the structs here are.
VERSION = 6
#: The name of the shared object, and the variable that may name another file.
NAME, VARIABLE = "libsandbarstove.so", "SANDBAR_LIBRARY"

MAX_REPLY = 4121
MAX_PACKET = 4200

#: What the codes mean, as sandbarstove_text.h has it.
TEXTS = {
    0: "it was done",
    1: "memory was refused",
    2: "the node, or the reader of frames, is not open",
    3: "ports, banks or a journal's room are outside their limits",
    4: "the maps are none that a node may have",
    5: "the bytes are no image",
    6: "the verifier refuses the program",
    7: "there is no such port",
    8: "there is no such bank",
    9: "the end of the packet is neither of the two",
    10: "the packet has too many bytes",
    11: "the room is too small, or bytes lie outside the bank",
    12: "the journal has no such entry",
    13: "the node, or the reader of frames, is open",
    14: "the node has no such map or cell",
    15: "what memory holds is not what was written there: a bit of it flipped",
    16: "the number is no part of a node that is scrubbed",
    17: "there is no such slot: a slot is 0 to 3",
    18: "no generation is left: 4,294,967,295 programs were published",
}


class LibraryFault(Exception):
    """The shared object cannot be had, or is of another version."""


class NodeHandle(Structure):
    _fields_ = [("inside", c_uint64), ("live", c_uint32), ("unused", c_uint32)]


class BankConfig(Structure):
    _fields_ = [("base", c_uint32), ("size", c_uint32), ("room", c_uint32)]


class MapConfig(Structure):
    _fields_ = [("cells", c_uint16), ("peak", c_uint16)]


class Why(Structure):
    _fields_ = [("code", c_uint16), ("slot", c_uint16)]


class ServedRecord(Structure):
    _fields_ = [("verdict", c_uint64), ("generation", c_uint32), ("reply_length", c_uint32), ("address", c_uint32),
                ("length", c_uint32), ("room", c_uint32), ("kind", c_uint8), ("status", c_uint8), ("command", c_uint8),
                ("place", c_uint8), ("extended", c_uint8), ("found", c_uint8), ("found_slot", c_uint8), ("unused", c_uint8),
                ("unused_word", c_uint32)]


class ScrubbedRecord(Structure):
    _fields_ = [("first", c_uint64), ("mended", c_uint8), ("withdrawn", c_uint8), ("restored", c_uint8), ("sizes", c_uint8),
                ("journals", c_uint8), ("unused", c_uint8), ("unused_half", c_uint16)]


class EntryRecord(Structure):
    _fields_ = [("number", c_uint64), ("verdict", c_uint64), ("generation", c_uint32), ("packet_length", c_uint32),
                ("port", c_uint8), ("status", c_uint8), ("end", c_uint8), ("unused", c_uint8), ("unused_word", c_uint32)]


class JournalRecord(Structure):
    _fields_ = [("entries", c_uint64), ("loaded", c_uint32), ("unused", c_uint32)]


#: The structs by their names in the header.
STRUCTS = {"sandbar_node": NodeHandle, "sandbar_bank": BankConfig, "sandbar_map": MapConfig, "sandbar_why": Why,
           "sandbar_served": ServedRecord, "sandbar_scrubbed": ScrubbedRecord, "sandbar_entry": EntryRecord, "sandbar_journal": JournalRecord}

_NODE, _BYTES = POINTER(NodeHandle), POINTER(c_uint8)
_MAPS = [POINTER(MapConfig), c_size_t]
_IMAGE = [c_char_p, c_size_t, POINTER(Why)]
_CALLS = {
    "verify": [*_MAPS, *_IMAGE],
    "open": [_NODE, c_uint8, c_uint8, POINTER(BankConfig), c_size_t, *_MAPS, *_IMAGE],
    "publish": [_NODE, c_uint8, *_IMAGE],
    "close": [_NODE],
    "serve": [_NODE, c_uint8, c_char_p, c_size_t, c_uint8, _BYTES, c_size_t, POINTER(ServedRecord)],
    "journal_of": [_NODE, c_uint8, POINTER(JournalRecord)],
    "entry_at": [_NODE, c_uint8, c_uint32, _BYTES, c_size_t, POINTER(EntryRecord)],
    "rotate": [_NODE, c_uint8, c_uint32],
    "peek": [_NODE, c_uint8, c_uint32, _BYTES, c_size_t],
    "poke": [_NODE, c_uint8, c_uint32, c_char_p, c_size_t, c_uint32],
    "word": [_NODE, c_uint8, c_uint16, POINTER(c_uint64)],
    "scrub": [_NODE, c_uint8, c_char_p, c_size_t, POINTER(ScrubbedRecord)],
    "scrub_each": [_NODE, c_uint32],
}

_loaded: dict[str, CDLL] = {}


def library() -> CDLL:
    """The shared object that SANDBAR_LIBRARY names, or else `libsandbarstove.so` where the system looks for it."""
    path = os.environ.get(VARIABLE) or NAME
    if path not in _loaded:
        _loaded[path] = _opened(path)
    return _loaded[path]


def _opened(path: str) -> CDLL:
    try:
        found = CDLL(path)
        found.sandbar_version.restype = c_uint32
        version = found.sandbar_version()
        for name, kinds in _CALLS.items():
            call = getattr(found, f"sandbar_{name}")
            call.argtypes, call.restype = kinds, c_uint32
    except (OSError, AttributeError) as error:
        raise LibraryFault(f"{path} cannot be loaded: {error}; {VARIABLE} may name its file") from None
    if version != VERSION:
        raise LibraryFault(f"{path} has version {version}, and this module is for version {VERSION}")
    return found
