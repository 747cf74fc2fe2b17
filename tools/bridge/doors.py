"""The ports of this machine at which clients come, and how many may be there at once."""
from __future__ import annotations

import asyncio
import socket
from typing import TYPE_CHECKING, Optional, Type

from .clients import Client, FramesClient, LinesClient
from .damage import Spoiler
from .telling import Misuse, place, tell

if TYPE_CHECKING:
    from .bridge import Bridge

# So many connections may wait at a port, and so many seconds until a port is looked at again that had no room.
BACKLOG, AGAIN = 1024, 1.0


class Door:
    """A port of this machine; packets in frames come in at the port `at` of the node."""

    def __init__(self, bridge: Bridge, port: int, kind: Type[Client], spoiler: Spoiler, at: int = 0):
        self.bridge, self.kind, self.spoiler, self.at = bridge, kind, spoiler, at
        self.node, self.place = bridge.node, place(bridge.words.bind, port)
        family = socket.AF_INET6 if ":" in bridge.words.bind else socket.AF_INET
        try:
            self.socket = socket.socket(family, socket.SOCK_STREAM)
            self.socket.setsockopt(socket.SOL_SOCKET, socket.SO_REUSEADDR, 1)
            self.socket.bind((bridge.words.bind, port))
        except OSError as error:
            raise Misuse(f"{self.place}: {error.strerror}", 1) from None
        self.socket.setblocking(False)

    def listen(self) -> None:
        try:
            self.socket.listen(BACKLOG)
        except OSError as error:
            raise Misuse(f"{self.place}: {error.strerror}", 1) from None

    def words(self) -> tuple[object, ...]:
        return ("lines",) if self.kind is LinesClient else ("frames", self.at)

    def accept(self) -> Client:
        """The next client. Of one that is gone without a word, after power was lost, the system says so some time."""
        connection, address = self.socket.accept()
        connection.setblocking(False)
        connection.setsockopt(socket.IPPROTO_TCP, socket.TCP_NODELAY, 1)
        connection.setsockopt(socket.SOL_SOCKET, socket.SO_KEEPALIVE, 1)
        return self.kind(self, connection, place(*address[:2]))


class Doors:
    """All ports. While there is no room for a client they are shut: who comes waits."""

    def __init__(self, bridge: Bridge):
        words, self.bridge, self.most = bridge.words, bridge, bridge.words.clients
        none, spoiler = Spoiler(None, 0), Spoiler(words.spoil, words.seed)
        self.all = [Door(bridge, words.port, LinesClient, none if words.frames else spoiler)]
        self.all += [Door(bridge, port, FramesClient, spoiler, at) for port, at in words.frames.items()]
        self.clients: dict[Client, asyncio.Task] = {}
        self.is_open = self.is_over = False
        # How many clients were there when it was said that there is no room: it is said again after a quarter of them left.
        self.full_at: Optional[int] = None

    def listen(self) -> None:
        for door in self.all:
            door.listen()
        self.open()

    def open(self) -> None:
        if not self.is_open and not self.is_over:
            self.is_open = True
            for door in self.all:
                asyncio.get_running_loop().add_reader(door.socket, self.enter, door)

    def shut(self) -> None:
        if self.is_open:
            self.is_open = False
            for door in self.all:
                asyncio.get_running_loop().remove_reader(door.socket)

    def enter(self, door: Door) -> None:
        """Takes a client in that has come, if there is room for it."""
        if len(self.clients) >= self.most:
            self.fill(f"{self.most} clients are there (--clients)")
            return
        try:
            client = door.accept()
        except (BlockingIOError, ConnectionError):
            return
        except OSError as error:
            self.fill(error.strerror)
            asyncio.get_running_loop().call_later(AGAIN, self.open)
            return
        self.bridge.log.note("connect", *door.words(), peer=client.peer)
        self.clients[client] = asyncio.create_task(client.serve())
        self.clients[client].add_done_callback(lambda task: self.left(client, task))

    def fill(self, why: str) -> None:
        """Shuts the ports, and says so once."""
        self.shut()
        if self.full_at is None:
            self.full_at = len(self.clients)
            tell(f"{why}: who comes now waits until a client leaves")
            self.bridge.log.note("full")

    def left(self, client: Client, task: asyncio.Task) -> None:
        del self.clients[client]
        if self.full_at is not None and len(self.clients) <= self.full_at * 3 // 4:
            self.full_at = None
        self.bridge.log.note("leave", peer=client.peer)
        if not task.cancelled() and task.exception():
            tell(f"{client.peer}: {task.exception()!r}")
        self.open()

    def close(self) -> None:
        """Takes nobody in any more."""
        self.shut()
        self.is_over = True
        for door in self.all:
            door.socket.close()

    def end(self, watchers: list[Client]) -> None:
        """Takes no more lines of clients, except of these, which see how the node ends."""
        for client in self.clients:
            if client not in watchers:
                client.end()

    async def leave(self, seconds: float) -> None:
        """Has all clients leave. What they still have to get goes out within these seconds."""
        self.end([])
        if self.clients:
            await asyncio.wait(self.clients.values(), timeout=seconds)
        for client in list(self.clients):
            client.cut_off()
