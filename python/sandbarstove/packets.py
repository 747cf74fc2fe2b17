"""Commands and replies of RMAP (ECSS-E-ST-50-52C), by the rules of `rmapctl packet` and `rmapctl show`."""
from __future__ import annotations

from dataclasses import dataclass
from typing import Iterable, Iterator, Optional, Union

#: The most bytes of a packet that `command` makes.
MAX_PACKET = 4200
#: The extended address of the boot window, to which programs are loaded.
BOOT_WINDOW = 0xFF
#: What a status means.
STATUSES = {
    0: "success",
    1: "general error",
    2: "unused packet type or command code",
    3: "invalid key",
    4: "invalid data CRC",
    5: "early EOP",
    6: "too much data",
    7: "EEP",
    9: "verify buffer overrun",
    10: "not implemented or not authorised",
    11: "RMW data length error",
    12: "invalid target logical address",
}

# Bits of the instruction.
_COMMAND, _WRITE, _VERIFY, _REPLY, _INCREMENT = 0x40, 0x20, 0x10, 0x08, 0x04
# Bytes of a path, which routers take away: a logical address is 20 or more.
_PATH = bytes(range(32))
# Addresses in the boot window, the most bytes of one write there, and the most of an image.
_STAGING, _CONTROL, _RESULT, _PIECE, _MAX_IMAGE = 0x0000, 0x10000, 0x10000, 4096, 16384
_SLOTS = range(4)


def _steps(byte: int) -> int:
    for _ in range(8):
        byte = byte >> 1 ^ (0xE0 if byte & 1 else 0)
    return byte


_TABLE = bytes(_steps(byte) for byte in range(256))


def crc(data: bytes) -> int:
    """The CRC of a header or of data."""
    register = 0
    for byte in data:
        register = _TABLE[register ^ byte]
    return register


def _checked(name: str, value: int, most: int) -> int:
    if isinstance(value, bool) or not isinstance(value, int) or not 0 <= value <= most:
        raise ValueError(f"{name} is {value!r}: wanted 0 to {most:X} (hexadecimal)")
    return value


def _instruction(kind: str, verify: bool, reply: bool, increment: bool, words: int) -> int:
    if verify and kind != "write":
        raise ValueError(f"verify is of a write, and this is a {kind}")
    if not reply and kind != "write":
        raise ValueError(f"a {kind} has a reply: only a write may go without")
    if not increment and kind == "rmw":
        raise ValueError("an rmw has the increment bit set")
    bits = _COMMAND | words
    bits |= _WRITE * (kind == "write") | _VERIFY * (verify or kind == "rmw")
    return bits | _REPLY * reply | _INCREMENT * increment


def _body(kind: str, data: Union[int, bytes, None], mask: Optional[bytes]) -> tuple[int, bytes]:
    """The data length of a command, and what follows its header."""
    if kind == "read":
        if mask is not None or isinstance(data, (bytes, bytearray)):
            raise ValueError("a read has a length, and no data")
        return _checked("the length", data, 0xFFFFFF), b""
    if not isinstance(data, (bytes, bytearray)):
        raise ValueError(f"the data of a {kind} are bytes, and not {data!r}")
    if kind == "write":
        if mask is not None:
            raise ValueError("a write has no mask")
        return len(data), bytes(data) + bytes([crc(data)])
    if mask is None or len(mask) != len(data) or len(data) > 4:
        raise ValueError("an rmw has at most 4 bytes of data, and a mask of as many")
    whole = bytes(data) + bytes(mask)
    return len(whole), whole + bytes([crc(whole)])


def command(kind: str, address: int, data: Union[int, bytes], mask: Optional[bytes] = None, *, target: int = 0xFE,
            key: int = 0, initiator: int = 0x67, transaction: int = 0, extended: int = 0, reply_address: bytes = b"",
            verify: bool = False, reply: bool = True, increment: bool = True) -> bytes:
    """The bytes of a command, as `rmapctl packet` makes them: `kind` is "read", "write" or "rmw".

    `data` is how many bytes a read wants, or what a write or an rmw writes. The reply address has 1 to 12 bytes; to
    4, 8 or 12 it is filled with zeros in front, which the target leaves out. What cannot be made raises ValueError.
    """
    if kind not in ("read", "write", "rmw"):
        raise ValueError(f"kind is {kind!r}: wanted read, write or rmw")
    if len(reply_address) > 12:
        raise ValueError(f"the reply address has {len(reply_address)} bytes: wanted at most 12")
    path = bytes(reply_address).rjust(-(-len(reply_address) // 4) * 4, b"\0")
    length, body = _body(kind, data, mask)
    head = bytes([_checked("target", target, 0xFF), 1, _instruction(kind, verify, reply, increment, len(path) // 4),
                  _checked("key", key, 0xFF)]) + path
    head += bytes([_checked("initiator", initiator, 0xFF)])
    head += _checked("transaction", transaction, 0xFFFF).to_bytes(2, "big")
    head += bytes([_checked("extended", extended, 0xFF)])
    head += _checked("address", address, 0xFFFFFFFF).to_bytes(4, "big") + _checked("the length", length, 0xFFFFFF).to_bytes(3, "big")
    packet = head + bytes([crc(head)]) + body
    if len(packet) > MAX_PACKET:
        raise ValueError(f"the packet has {len(packet)} bytes: wanted at most {MAX_PACKET}")
    return packet


@dataclass(frozen=True)
class Reply:
    """What a reply says. `data` is None of a write's, which has none."""
    kind: str
    status: int
    initiator: int
    target: int
    transaction: int
    data: Optional[bytes] = None
    path: bytes = b""

    @property
    def meaning(self) -> str:
        """The status in words."""
        return STATUSES.get(self.status, "no status of the standard")

    def __str__(self) -> str:
        path = f" path {self.path.hex().upper()}" if self.path else ""
        data = f" length {len(self.data)}" if self.data is not None else ""
        data += f" data {self.data.hex().upper()}" if self.data else ""
        return (f"reply {self.kind} status {self.status} {self.meaning}{path} initiator {self.initiator:02X}"
                f" target {self.target:02X} transaction {self.transaction:04X}{data}")


def reply(packet: bytes) -> Reply:
    """Reads the bytes of a reply: before it may be its path, of bytes below 20. What is none raises ValueError."""
    rest = bytes(packet).lstrip(_PATH)
    path = bytes(packet[:len(packet) - len(rest)])
    if len(rest) < 8:
        raise ValueError("no reply: too few bytes")
    if rest[1] != 1 or rest[2] & 0xC0:
        raise ValueError("no reply: the protocol is not 01" if rest[1] != 1 else "no reply: it is a command")
    is_write = bool(rest[2] & _WRITE)
    end = 8 if is_write else 12
    if len(rest) < end:
        raise ValueError("no reply: too few bytes")
    if crc(rest[:end]):
        raise ValueError(f"a wrong header CRC: it is {rest[end - 1]:02X} and should be {crc(rest[:end - 1]):02X}")
    body = rest[end:]
    data = None if is_write else body[:-1]
    length = 0 if is_write else int.from_bytes(rest[8:11], "big")
    if len(body) != (0 if is_write else length + 1):
        raise ValueError(f"{len(body)} bytes after the header: wanted {0 if is_write else length + 1}")
    if crc(body):
        raise ValueError(f"a wrong data CRC: it is {body[-1]:02X} and should be {crc(data):02X}")
    kind = "write" if is_write else "rmw" if rest[2] & _VERIFY else "read"
    return Reply(kind, rest[3], rest[0], rest[4], int.from_bytes(rest[5:7], "big"), data, path)


def wants_reply(packet: bytes) -> bool:
    """Whether a packet is a command whose reply bit is set."""
    rest = bytes(packet).lstrip(_PATH)
    return len(rest) > 3 and rest[1] == 1 and rest[2] & 0xC0 != 0 and rest[2] & _REPLY != 0


def slots_of(slots: Union[str, int, Iterable[int]]) -> list[int]:
    """The slots of a load: one of 0 to 3, several, or "all"."""
    found = list(_SLOTS) if slots == "all" else [slots] if isinstance(slots, int) else list(slots)
    if not found or any(slot not in _SLOTS for slot in found):
        raise ValueError(f"slots is {slots!r}: wanted 0 to 3, several of them, or all")
    return found


def load_packets(image: bytes, slots: Union[str, int, Iterable[int]], *, transaction: int = 0, **fields: int) -> Iterator[bytes]:
    """The packets that load an image, as `rmapctl packet load` makes them: for each slot the writes of the image to the
    staging, the control write, and the read of the load result. `fields` are target, key and initiator of `command`."""
    if len(image) > _MAX_IMAGE:
        raise ValueError(f"the image has {len(image)} bytes: wanted at most {_MAX_IMAGE}")
    number = _checked("transaction", transaction, 0xFFFF)
    for slot in slots_of(slots):
        control = bytes([slot, 0]) + len(image).to_bytes(2, "big")
        rows = [("write", _STAGING + at, image[at:at + _PIECE]) for at in range(0, len(image), _PIECE)]
        for kind, address, data in [*rows, ("write", _CONTROL, control), ("read", _RESULT, 8)]:
            yield command(kind, address, data, transaction=number & 0xFFFF, extended=BOOT_WINDOW, **fields)
            number += 1
