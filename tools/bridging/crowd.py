"""Many clients in lines at once, each of which sends reads that are like no others, and goes on at the next bridge when one is gone."""
from __future__ import annotations

import asyncio
import threading

from .kit import crc, line


def numbered(number: int) -> bytes:
    """A read of one byte that is like no other: its transaction and its address say the number."""
    head = bytes.fromhex("FE014C0067") + (number & 0xFFFF).to_bytes(2, "big") + b"\0" + (0xA0000000 + (number >> 16)).to_bytes(4, "big")
    head += bytes.fromhex("000001")
    return head + bytes([crc(head)])


def number_of(packet: str) -> int:
    """The number of such a read, by its digits."""
    return int(packet[10:14], 16) + (int(packet[16:24], 16) - 0xA0000000 << 16)


class Crowd(threading.Thread):
    """So many clients, which send so many packets in all, one after another."""

    def __init__(self, port: int, clients: int, packets: int, begin: int = 0):
        super().__init__(daemon=True)
        self.port, self.clients, self.next, self.last = port, clients, begin, begin + packets
        self.answered: set[int] = set()
        self.open: set[int] = set()
        self.is_stopped = False
        self.start()

    def run(self) -> None:
        asyncio.run(self.all())

    async def all(self) -> None:
        await asyncio.gather(*(self.client() for _ in range(self.clients)))

    async def client(self) -> None:
        """Goes on until all packets were sent."""
        while self.next < self.last and not self.is_stopped:
            try:
                reader, writer = await asyncio.open_connection("127.0.0.1", self.port)
            except OSError:
                await asyncio.sleep(0.02)
                continue
            await self.talk(reader, writer)
            writer.close()

    async def talk(self, reader: asyncio.StreamReader, writer: asyncio.StreamWriter) -> None:
        while self.next < self.last and not self.is_stopped:
            number, self.next = self.next, self.next + 1
            self.open.add(number)
            try:
                writer.write(line(numbered(number)).encode() + b"\n")
                answer = await reader.readuntil()
            except (OSError, asyncio.IncompleteReadError):
                return
            if not answer.startswith(b"0 67010C00"):
                raise ValueError(answer)
            self.open.remove(number)
            self.answered.add(number)

    def stop(self) -> None:
        self.is_stopped = True
        self.join(30)
