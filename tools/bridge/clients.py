"""The clients: those that speak lines, and those that speak frames (docs/LIVE.md)."""
from __future__ import annotations

import asyncio
import json
import socket
from typing import TYPE_CHECKING, Optional

from .damage import EEP, EOP, Spoiler
from .node import LINE, Closed, Node
from .telling import place, tell

if TYPE_CHECKING:
    from .doors import Door

# So many bytes are read at once of a connection: each holds no more than these and two lines.
CHUNK = 8192
# So many bytes a watcher may be behind, and so many go to it at once.
MOST_OWED, PIECE = 2**20, 65536
# The bytes of a packet that matter: of a longer one the first are kept.
MOST_OF_PACKET = 4200
HEAD = 12
# After so many lines or frames of one client others have their turn.
TURN = 4
# The bytes of a path that routers take away.
PATH = bytes(range(32))
# What may be round a line of one word, as a terminal puts it there.
ROUND = b" \r"


class Narrow(asyncio.StreamReaderProtocol, asyncio.BufferedProtocol):
    """Streams that read CHUNK bytes at once, into one place: asyncio's own hold up to 256 kB more a connection."""
    room = memoryview(bytearray(CHUNK))

    def get_buffer(self, _sizehint: int) -> memoryview:
        return self.room

    def buffer_updated(self, count: int) -> None:
        self.data_received(bytes(self.room[:count]))


class Client:
    """A connection: what comes of it, and what it is owed."""

    def __init__(self, door: Door, connection: socket.socket, peer: str):
        self.door, self.connection, self.peer = door, connection, peer
        self.node: Node = door.node
        self.spoiler: Spoiler = door.spoiler
        self.reader = asyncio.StreamReader(limit=LINE, loop=asyncio.get_running_loop())
        self.writer: Optional[asyncio.StreamWriter] = None
        # How many lines came.
        self.count = 0
        self.owed, self.feeding = bytearray(), None
        self.writing, self.is_owed = asyncio.Lock(), asyncio.Event()

    async def serve(self) -> None:
        """Answers what comes until nothing more does, and leaves."""
        loop = asyncio.get_running_loop()
        protocol = Narrow(self.reader, loop=loop)
        transport, _ = await loop.connect_accepted_socket(lambda: protocol, self.connection)
        transport.set_write_buffer_limits(0)
        self.writer = asyncio.StreamWriter(transport, protocol, self.reader, loop)
        try:
            await self.talk()
            await self.pay()
        except (OSError, asyncio.IncompleteReadError):
            pass
        await self.leave()

    async def talk(self) -> None:
        raise NotImplementedError

    async def leave(self) -> None:
        """Ends what it left open at the node, and closes its connection when all has left that it is owed."""
        if self in self.node.watchers:
            self.node.watchers.remove(self)
        if self.feeding:
            self.feeding.cancel()
        try:
            await self.node.leave(self)
        except Closed:
            pass
        if not self.writer.is_closing():
            self.writer.write(bytes(self.owed))
        self.writer.close()
        try:
            await self.writer.wait_closed()
        except OSError:
            pass

    def end(self) -> None:
        """Takes no more of it."""
        self.reader.set_exception(Closed())

    def cut_off(self) -> None:
        if self.writer:
            self.writer.transport.abort()

    # --- What leaves

    async def write(self, data: bytes) -> None:
        """Sends bytes, and waits until they have left, however long that takes."""
        async with self.writing:
            if self.writer.is_closing():
                raise Closed
            self.writer.write(data)
            await self.writer.drain()

    def owe(self, text: bytes) -> None:
        """Lines that a watcher gets when it can. One that is too far behind is cut off."""
        self.owed += text
        if len(self.owed) > MOST_OWED:
            self.node.watchers.remove(self)
            self.owed.clear()
            tell(f"{self.peer}: a watcher that is over {MOST_OWED >> 20} MB behind is cut off")
            self.node.log.note("slow", peer=self.peer)
            self.cut_off()
        else:
            self.is_owed.set()

    async def pay(self) -> None:
        """Sends what it is owed, in whole lines."""
        while self.owed:
            end = self.owed.rfind(b"\n", 0, PIECE) + 1
            piece = bytes(self.owed[:end])
            del self.owed[:end]
            await self.write(piece)

    async def feed(self) -> None:
        try:
            while await self.is_owed.wait():
                self.is_owed.clear()
                await self.pay()
        except OSError:
            pass

    async def reply(self, port: int, reply: bytes) -> None:
        """Sends a reply, or what is sent in its place."""
        for wait, packet, end in self.spoiler.packets(port, reply):
            data = self.packet(port, packet, end)
            if wait:
                asyncio.get_running_loop().call_later(wait, self.write_late, data)
            else:
                await self.write(data)

    def write_late(self, data: bytes) -> None:
        if not self.writer.is_closing():
            self.writer.write(data)

    def packet(self, port: int, packet: bytes, end: bytes) -> bytes:
        raise NotImplementedError


class LinesClient(Client):
    """A client that speaks lines."""

    wants_texts = False

    async def talk(self) -> None:
        while (line := await self.line()) is not None:
            self.count += 1
            if self.count % TURN == 0:
                await asyncio.sleep(0)
            word = line.strip(ROUND) if len(line) <= LINE else b""
            if word == b"watch":
                self.watch()
            elif word == b"words":
                self.wants_texts = True
            elif word == b"status":
                await self.write(json.dumps(self.door.bridge.status()).encode() + b"\n")
            else:
                await self.answer(word if word in (b"journal", b"cells") else line)

    async def line(self) -> Optional[bytes]:
        """The next line without its line feed, or None. Of one that is too long only the beginning is kept, which is too long too."""
        try:
            return (await self.reader.readuntil())[:-1]
        except asyncio.IncompleteReadError as end:
            return end.partial or None
        except asyncio.LimitOverrunError:
            line = await self.reader.readexactly(LINE + 1)
        while True:
            try:
                await self.reader.readuntil()
                return line
            except asyncio.IncompleteReadError:
                return line
            except asyncio.LimitOverrunError as over:
                await self.reader.readexactly(over.consumed)

    def watch(self) -> None:
        if self not in self.node.watchers:
            self.node.watchers.append(self)
            self.feeding = self.feeding or asyncio.create_task(self.feed())

    async def answer(self, line: bytes) -> None:
        answers = await self.node.ask(self, line)
        await self.pay()
        words = answers[-1].split() if answers else []
        if len(words) == 3 and words[2] == b"EOP" and self.spoiler.rules:
            await self.reply(int(words[0]), bytes.fromhex(words[1].decode()))
            return
        if words[:1] == [b"line"] and self.wants_texts and (text := await self.node.text_of(words[3])):
            answers[-1] = answers[-1].rstrip(b"\n") + b": " + text + b"\n"
        await self.write(b"".join(answers))

    def packet(self, port: int, packet: bytes, end: bytes) -> bytes:
        return b"%d %s%s\n" % (port, packet.hex().upper().encode(), end)


class FramesClient(Client):
    """A client that speaks frames: of a packet the path is dropped, and so much is kept as a packet may have."""

    # The number of the frame that is under way or next, and whether the end of the input would cut it, or its packet.
    frame, is_within = 1, False

    async def talk(self) -> None:
        packet = b""
        while head := await self.head():
            self.is_within = True
            if head[0] <= 2:
                packet = await self.body(head, packet)
            else:
                await self.other(head)
            if head[0] <= 1:
                await self.answer(packet, EEP if head[0] else EOP)
                packet = b""
            self.frame += 1
            if self.frame % TURN == 0:
                await asyncio.sleep(0)
            self.is_within = head[0] == 2 or packet != b""

    async def head(self) -> bytes:
        """The head of the next frame, or nothing at the end."""
        try:
            return await self.reader.readexactly(HEAD)
        except asyncio.IncompleteReadError as end:
            self.is_within |= bool(end.partial)
            return b""

    async def leave(self) -> None:
        if self.is_within and not self.node.closing:
            self.node.log.note("frame", self.frame, "fault", 2, peer=self.peer)
        await super().leave()

    async def body(self, head: bytes, packet: bytes) -> bytes:
        """The packet with the bytes of a frame after it."""
        left = int.from_bytes(head[2:], "big")
        while left:
            chunk = await self.chunk(left)
            left -= len(chunk)
            packet = (packet + chunk if packet else chunk.lstrip(PATH))[:MOST_OF_PACKET]
        return packet

    async def other(self, head: bytes) -> None:
        """Reads a frame away that has no bytes of a packet."""
        if head.isascii() and head.decode().isprintable():
            self.node.log.note("frame", self.frame, "text", peer=self.peer)
        elif head[0] not in (0x30, 0x31):
            self.node.log.note("frame", self.frame, "fault", 1, peer=self.peer)
        left = int.from_bytes(head[2:], "big")
        while left:
            left -= len(await self.chunk(left))

    async def chunk(self, left: int) -> bytes:
        """Some of the next bytes."""
        chunk = await self.reader.read(min(left, CHUNK))
        if not chunk:
            raise asyncio.IncompleteReadError(b"", None)
        return chunk

    async def answer(self, packet: bytes, end: bytes) -> None:
        self.count += 1
        digits = b" " + packet.hex().upper().encode() if packet else b""
        words = (await self.node.ask(self, b"%d%s%s" % (self.door.at, digits, end)))[-1].split()
        if words[-1] == b"EOP":
            await self.reply(self.door.at, bytes.fromhex(words[1].decode()))

    def packet(self, _port: int, packet: bytes, end: bytes) -> bytes:
        return bytes([end == EEP, 0]) + len(packet).to_bytes(10, "big") + packet
