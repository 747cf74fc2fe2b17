"""The fields of commands and replies."""
from __future__ import annotations

from typing import NamedTuple, Optional


class Command(NamedTuple):
    """The fields of a packet with a whole header, whatever else is wrong with it."""
    target: int
    instruction: int
    key: int
    initiator: int
    extended: int
    address: int
    length: int
    path: bytes

    @property
    def code(self) -> int:
        return self.instruction >> 2 & 15

    @property
    def is_rmw(self) -> bool:
        return self.code == 7

    @property
    def writes(self) -> bool:
        return self.code >= 8 or self.is_rmw

    def cells(self) -> range:
        """The addresses that it may write."""
        count = self.length // 2 if self.is_rmw else self.length
        return range(self.address, self.address + (count if self.code & 1 else min(count, 1)))


def command_of(packet: bytes) -> Optional[Command]:
    if len(packet) < 16 or packet[1] != 1 or len(packet) < 16 + 4 * (packet[2] & 3):
        return None
    place = 4 + 4 * (packet[2] & 3)
    tail = packet[place:place + 12]
    path = packet[4:place].lstrip(b"\0") or packet[4:place][:1]
    return Command(packet[0], packet[2], packet[3], tail[0], tail[3], int.from_bytes(tail[4:8], "big"),
                   int.from_bytes(tail[8:11], "big"), path)


class Reply(NamedTuple):
    status: int
    is_read: bool
    length: int
    data: bytes


def reply_of(line: Optional[str], command: Command) -> Optional[Reply]:
    """The reply of a line to that command, if it is one in form."""
    if line is None or line == "-":
        return None
    data = bytes.fromhex(line.split()[0])
    if not data.startswith(command.path):
        return None
    data = data[len(command.path):]
    if len(data) == 8 and data[2] & 0x20:
        return Reply(data[3], False, 0, b"")
    if len(data) >= 13 and not data[2] & 0x20:
        return Reply(data[3], True, int.from_bytes(data[8:11], "big"), data[12:-1])
    return None
