"""What a bridge reads of commands and replies: where a header is, and what a load does (docs/PROTOCOL.md)."""
from __future__ import annotations

from typing import NamedTuple, Optional

COMMAND, WRITE, TYPE = 0x40, 0x20, 0xC0
# The extended address of the boot window, and the address of a control write and of the load result there.
BOOT_WINDOW, CONTROL = 0xFF, 0x10000
CONTROL_PLACE = b"FF00010000"
SUCCESS, GENERAL_ERROR = 0, 1


def _steps(byte: int) -> int:
    for _ in range(8):
        byte = byte >> 1 ^ (0xE0 if byte & 1 else 0)
    return byte


_TABLE = bytes(_steps(byte) for byte in range(256))


def crc(data: bytes) -> int:
    """The CRC of a header or of data."""
    register = 0
    for byte in data:
        register = _TABLE[register ^ byte]
    return register


def head_of(reply: bytes) -> tuple[int, int]:
    """Where the header of a reply begins and ends: before it is its path, and it ends in its CRC."""
    for start in range(len(reply) - 7):
        end = start + (8 if reply[start + 2] & WRITE else 12)
        if reply[start + 1] == 1 and end <= len(reply) and crc(reply[start:end - 1]) == reply[end - 1]:
            return start, end
    raise ValueError(reply.hex())


class Control(NamedTuple):
    """A command at the address of a control write: whether it writes, and the slot that it names."""
    is_write: bool
    slot: int


def control_in(packet: bytes) -> Optional[Control]:
    """The control write, or the read of the load result, that a packet is."""
    if len(packet) < 16 or packet[2] & TYPE != COMMAND:
        return None
    place = 7 + 4 * (packet[2] & 3)
    if packet[place:place + 5] != bytes([BOOT_WINDOW]) + CONTROL.to_bytes(4, "big"):
        return None
    data = packet[place + 9:]
    return Control(bool(packet[2] & WRITE), data[0] if data else 0)


class Load(NamedTuple):
    """A control write whose load result nobody has read: who sent it, the slot, and whether it was refused."""
    client: object
    slot: int
    is_refused: bool

    def words(self, result: Optional[bytes]) -> tuple[object, ...]:
        """The words of its event after the port. The code or the generation that nobody read is `-`."""
        if self.is_refused:
            return "fault", result[0] if result and result[0] else "-"
        return self.slot, int.from_bytes(result[4:8], "big") if result else "-"


class Loads:
    """What becomes of loads, by the control writes and the reads of load results at each port."""

    def __init__(self) -> None:
        self.open: dict[int, Load] = {}

    def after(self, client: object, port: int, packet: bytes, reply: bytes) -> list[tuple[object, ...]]:
        """The words of the events that a packet and its reply bring."""
        control = control_in(packet)
        if control is None:
            return []
        start, end = head_of(reply) if reply else (0, 0)
        status = reply[start + 3] if reply else SUCCESS
        if not control.is_write:
            result = reply[end:-1]
            load = self.open.pop(port, None) if status == SUCCESS and len(result) == 8 else None
            return [(port, *load._replace(is_refused=result[0] != 0).words(result))] if load else []
        before = self.open.pop(port, None)
        events: list[tuple[object, ...]] = [(port, *before.words(None))] if before else []
        if status in (SUCCESS, GENERAL_ERROR):
            self.open[port] = Load(client, control.slot, status != SUCCESS)
        else:
            events.append((port, "status", status))
        return events

    def left_by(self, client: object) -> list[tuple[object, ...]]:
        """The words of the events of loads whose result a client that leaves did not read."""
        ports = [port for port, load in self.open.items() if load.client is client]
        return [(port, *self.open.pop(port).words(None)) for port in ports]
