"""Memory that is read before a run, and put back after it."""
from __future__ import annotations

from typing import Iterator, Optional

from sending.commands import Command, Reply, command_of, reply_of
from sending.lines import Packet, awaited
from sending.targets import Bench


def crc(data: bytes) -> int:
    """The CRC of RMAP (ECSS-E-ST-50-52C, 8-bit CRC)."""
    value = 0
    for byte in data:
        value ^= byte
        for _ in range(8):
            value = value >> 1 ^ (0xE0 if value & 1 else 0)
    return value


class Keeper:
    """Reads the memory that packets may write, and puts it back. It asks as those packets do that are due to be carried out."""

    def __init__(self, bench: Bench, packets: list[Packet], due: list[str]):
        self.bench, self.transaction = bench, 0
        self.kept: dict[tuple[int, int], tuple[Command, bytes]] = {}
        self.names: list[str] = []
        self.askers: list[Command] = []
        self.places: set[tuple[int, int]] = set()
        for packet, right in zip(packets, due):
            command = command_of(packet.data())
            if command:
                self.note(command, reply_of(right, command))

    def note(self, command: Command, right: Optional[Reply]) -> None:
        """Notes where a packet may write, and who asks if it is carried out."""
        asker = command._replace(instruction=0, extended=0, address=0, length=0, path=b"")
        if right and right.status == 0 and asker not in self.askers and len(self.askers) < 8:
            self.askers.append(asker)
        if command.writes and command.extended != 0xFF and command.length <= 4096:
            self.places |= {(command.extended, address) for address in command.cells()}

    def ask(self, asker: Command, code: int, place: tuple[int, int], length: int, data: bytes = b"") -> Optional[Reply]:
        """Sends a command as this one asks, and returns its reply."""
        self.transaction = (self.transaction + 1) % 65536
        header = bytes([asker.target, 1, 0x40 | code << 2, asker.key, asker.initiator]) + self.transaction.to_bytes(2, "big") \
            + bytes([place[0]]) + place[1].to_bytes(4, "big") + length.to_bytes(3, "big")
        body = data + bytes([crc(data)]) if code >= 8 else b""
        packet = header + bytes([crc(header)]) + body
        self.bench.target.send(packet, "EOP")
        return reply_of(self.bench.answer(awaited(packet), self.bench.wait), asker)

    def runs(self) -> Iterator[tuple[tuple[int, int], int]]:
        """The pieces of memory, each of at most 256 bytes that follow each other."""
        places = sorted(self.places)
        while places:
            extended, first = places[0]
            count = 1
            while count < min(256, len(places)) and places[count] == (extended, first + count):
                count += 1
            yield places[0], count
            places = places[count:]

    def read(self) -> None:
        for place, count in self.runs():
            self.read_piece(place, count)

    def read_piece(self, place: tuple[int, int], count: int) -> None:
        """Reads a piece, or what can be read of its halves."""
        status: Optional[int] = None
        for asker in self.askers if place[1] + count <= 2**32 else []:
            reply = self.ask(asker, 3, place, count)
            if reply and reply.status == 0 and len(reply.data) == count:
                self.kept[place] = (asker, reply.data)
                return
            status = reply.status if reply else status
        if count > 1 and status is not None:
            self.read_piece(place, count // 2)
            self.read_piece((place[0], place[1] + count // 2), count - count // 2)
        elif status != 10:
            self.names.append(f"{place[0]:02X}:{place[1]:08X}, {count} bytes: not read")

    def restore(self) -> list[str]:
        """Puts memory back, and names what could not be."""
        for place, (asker, data) in self.kept.items():
            for other in [asker, *self.askers]:
                self.ask(other, 11, place, len(data), data)
                reply = self.ask(asker, 3, place, len(data))
                if reply and reply.data == data:
                    break
            else:
                self.names.append(f"{place[0]:02X}:{place[1]:08X}, {len(data)} bytes: not put back")
        return self.names
