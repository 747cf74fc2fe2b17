"""The talk with the node: one line is answered before the next one is asked."""
from __future__ import annotations

import asyncio
import collections
import os
import re
import time
from typing import TYPE_CHECKING, Callable, Iterable, Optional

from .digits import decimal
from .journal import END_OF_JOURNAL, HANDED_OUT, MOST_DIGITS, Journal
from .log import Log
from .packets import CONTROL_PLACE, Loads
from .pipe import LinePipe
from .telling import Misuse, print_error, tell

if TYPE_CHECKING:
    from .clients import Client

# How many ports a node may have.
PORTS = 32
# The most bytes of a line of a client.
LINE = 16384
# How the last line ends of what comes of a line that has more than one.
ENDS = {b"journal": END_OF_JOURNAL, b"cells": b" maps\n"}
# This many packets may wait for their entries: if there are more, the journal is asked for.
WAITING = 65536
# What the node says of the fault of a line, on standard error: the line by its number among those that it was sent.
SAID = re.compile(rb"^ {4}line (\d+)\b(?: fault (\d))?(.*)$")
# The clients of so many lines are known, for what the node says of them later.
RECENT = 1024


class Closed(ConnectionError):
    """The node takes no more lines."""


class Gone(Exception):
    """The program has ended, or says what is no answer: the lines that it said last."""

    def __init__(self, lines: list[bytes]):
        self.lines = lines
        super().__init__()


class Pieces:
    """The pieces of a packet that came at a port, and who sent them."""

    def __init__(self) -> None:
        self.digits, self.clients = b"", set()

    def add(self, words: Iterable[bytes], client: Client) -> None:
        self.digits = (self.digits + b"".join(words).upper())[:MOST_DIGITS]
        self.clients.add(client)


class Node:
    """The program, what was asked of it, and what the answers show."""

    def __init__(self, words: list[str], journal: Journal, log: Log, patience: float, end: Callable[[str], None]):
        self.words, self.journal, self.log, self.patience, self.end = words, journal, log, patience, end
        self.has_entries = "--entries" in words
        self.turn, self.closing = asyncio.Lock(), False
        # Since when an answer is due; how many lines were sent, and by whom the last ones; how many packets were answered.
        self.since: Optional[float] = None
        self.sent, self.packets, self.banks = 0, 0, 1
        self.recent: collections.deque[tuple[int, str, int]] = collections.deque(maxlen=RECENT)
        self.texts: dict[bytes, bytes] = {}
        self.pieces: collections.defaultdict[int, Pieces] = collections.defaultdict(Pieces)
        self.loads = Loads()
        self.watchers: list[Client] = []

    async def start(self) -> None:
        """Starts the program. In a session of its own no key that ends the bridge ends it, but the end of its input."""
        pipe = asyncio.subprocess.PIPE
        reading, writing = os.pipe()
        try:
            self.process = await asyncio.create_subprocess_exec(*self.words, stdin=pipe, stdout=writing, stderr=pipe,
                                                                start_new_session=True)
        except OSError as error:
            raise Misuse(f"{self.words[0]}: {error.strerror}", 1) from None
        finally:
            os.close(writing)
        self.output = LinePipe(reading)
        self.hearing = asyncio.create_task(self.hear())

    async def greet(self, ports: Iterable[int]) -> bool:
        """Asks what any node answers, and for each port whether the node has it. Whether it answers."""
        async with self.turn:
            try:
                await self.ask_what_it_has(ports)
            except Gone as gone:
                self.died(gone.lines)
                return False
            finally:
                self.since = None
        return True

    async def ask_what_it_has(self, ports: Iterable[int]) -> None:
        self.send(b"journal")
        self.send(b"cells")
        self.banks = sum(line.endswith(END_OF_JOURNAL) for line in await self.read(ENDS[b"cells"]))
        for port in ports:
            self.send(b"%d EOP" % port)
            if (await self.read())[-1].startswith(b"line "):
                raise Misuse(f"the node has no port {port}: its option is --ports", 1)
        if self.banks > 1 and not self.has_entries:
            tell("the times of entries of several banks are those of the hand-out")

    async def guard(self) -> None:
        """Ends the bridge if the node leaves a line without an answer for too long."""
        clock = asyncio.get_running_loop().time
        while True:
            left = self.patience if self.since is None else self.since + self.patience - clock()
            if left <= 0:
                self.end(f"the node answers nothing for {self.patience} seconds: what its journal still has is lost")
                return
            await asyncio.sleep(left)

    async def hear(self) -> None:
        """Passes on what the program says on standard error; of a line it names the client, and the client's own number."""
        while line := await self.said():
            said = SAID.match(line.rstrip(b"\n"))
            if said and said[2]:
                self.texts.setdefault(said[2], said[3].lstrip(b": "))
            asked = [(peer, own) for number, peer, own in self.recent if said and number == int(said[1])]
            if asked:
                fault = b" fault " + said[2] if said[2] else b""
                tell(f"{asked[0][0]}: line {asked[0][1]}{(fault + said[3]).decode(errors='replace')}")
            else:
                print_error(line)

    async def said(self) -> bytes:
        try:
            return await self.process.stderr.readline()
        except ValueError:
            return b"\n"

    async def text_of(self, fault: bytes) -> bytes:
        """What the program says of a fault; it says it after the first answer with it."""
        for _ in range(20):
            if fault in self.texts:
                break
            await asyncio.sleep(0.01)
        return self.texts.get(fault, b"")

    # --- A line and its answer

    async def ask(self, client: Client, line: bytes) -> list[bytes]:
        """The lines that come of a line and belong to who sent it; the last one is its answer, where it has one."""
        async with self.turn:
            if self.closing:
                raise Closed
            try:
                lines = await self.take(client, line)
                if len(self.journal.arrivals.served) >= WAITING:
                    await self.hand_out()
            except Gone as gone:
                self.died(gone.lines)
                raise Closed from None
            finally:
                self.since = None
            return lines

    async def take(self, client: Client, line: bytes) -> list[bytes]:
        # Of pieces only a bad one has an answer: what comes of `cells` after a piece says where it would end.
        is_piece = len(line) <= LINE and line.rstrip(b" ").endswith(b" PART")
        last = ENDS.get(line)
        came = time.time()
        self.recent.append((self.sent + 1, client.peer, client.count))
        self.show([b"> ", line, b"\n"])
        self.send(line)
        if is_piece:
            self.send(b"cells")
            lines = [answer for answer in await self.read(ENDS[b"cells"], client, is_shown=False) if not answer.startswith(b"cells ")]
            self.show(lines)
        else:
            lines = await self.read(last, client)
        is_asked = last == END_OF_JOURNAL or lines[-1:] != [] and lines[-1].startswith(b"set ")
        self.journal.add(lines, came, is_asked)
        own = [answer for answer in lines if not answer.startswith(b"entry " if is_asked else HANDED_OUT)]
        self.note(client, line.split(), own, is_piece, came)
        return own

    def note(self, client: Client, words: list[bytes], own: list[bytes], is_piece: bool, came: float) -> None:
        """Notes what a line that was taken did: a packet, a piece of one, or a write of the instrument."""
        answer = own[-1] if own else b""
        if answer.startswith(b"line ") or not words:
            return
        if answer.startswith(b"set "):
            self.log.note("set", *(word.decode() for word in words[1:3]), answer[4:-1].decode(), peer=client.peer)
            return
        port = decimal(words[0], PORTS - 1)
        if port is not None and is_piece:
            self.pieces[port].add(words[1:-1], client)
        elif port is not None:
            self.note_packet(client, port, words, answer, came)

    def note_packet(self, client: Client, port: int, words: list[bytes], answer: bytes, came: float) -> None:
        self.packets += 1
        pieces = self.pieces.pop(port, None) or Pieces()
        pieces.add(words[1:-1], client)
        if b" discard " in answer:
            self.log.note("discard", answer.split()[2].decode(), port, pieces.digits.decode(), peer=client.peer)
            return
        if not self.has_entries:
            self.journal.arrivals.note(came, port, pieces.digits, words[-1])
        if CONTROL_PLACE in pieces.digits:
            reply = answer.split()[1:-1]
            for load in self.loads.after(client, port, bytes.fromhex(pieces.digits.decode()), bytes.fromhex(b"".join(reply).decode())):
                self.log.note("load", *load, peer=client.peer)

    async def leave(self, client: Client) -> None:
        """Ends the pieces of packets with EEP whose client leaves, so that they take no packet of another with them."""
        for load in self.loads.left_by(client):
            self.log.note("load", *load, peer=client.peer)
        for port in [port for port, pieces in self.pieces.items() if client in pieces.clients]:
            await self.ask(client, b"%d EEP" % port)

    async def hand_out(self) -> None:
        """Asks for the journal without a client. What was served before has its entries now."""
        self.send(b"journal")
        lines = await self.read(END_OF_JOURNAL)
        self.journal.add(lines, time.time(), False)
        self.journal.arrivals.served.clear()

    def send(self, line: bytes) -> None:
        self.sent += 1
        self.since = asyncio.get_running_loop().time()
        self.process.stdin.write(line + b"\n")

    async def read(self, last: Optional[bytes] = None, client: Optional[Client] = None, is_shown: bool = True) -> list[bytes]:
        """Lines up to one that ends so, of journals up to that of the last bank; or else up to one that is of no journal."""
        lines: list[bytes] = []
        left = self.banks if last == END_OF_JOURNAL else 1
        while left:
            line = await self.line(lines)
            left -= line.endswith(last) if last else not line.startswith(HANDED_OUT)
            if client and line.startswith(b"line "):
                line = b"line %d %s" % (client.count, line.split(b" ", 2)[2])
            lines.append(line)
            if self.watchers and is_shown:
                self.show([line])
        return lines

    async def line(self, before: list[bytes]) -> bytes:
        """The next line that the program says, after those before it."""
        line = await self.output.line()
        if not line.endswith(b"\n"):
            raise Gone(before + [line])
        return line

    def show(self, parts: list[bytes]) -> None:
        """Gives lines to the watchers, and waits for none of them."""
        if self.watchers:
            text = b"".join(parts)
            for watcher in list(self.watchers):
                watcher.owe(text)

    # --- The end

    def died(self, lines: list[bytes]) -> None:
        """The program has ended: its last entries are kept, and what else it said is printed."""
        self.journal.add(lines, time.time(), False)
        print_error(b"".join(line for line in lines if not line.startswith(HANDED_OUT)))
        self.closing = True
        self.end("the node has ended")

    async def attend(self) -> None:
        """Ends the bridge when the program ends while no line is asked, as one that cannot read its image."""
        await self.process.wait()
        async with self.turn:
            if not self.closing:
                self.died(await self.last_lines())

    async def last_lines(self) -> list[bytes]:
        """What the program said last. If another process holds its output open, nobody waits for that."""
        try:
            return await asyncio.wait_for(self.output.to_the_end(), 1)
        except asyncio.TimeoutError:
            return []

    async def close(self) -> None:
        """Hands the journal out, closes the program's input and waits for its end. No more lines are taken then (`closing`)."""
        async with self.turn:
            try:
                await self.hand_out()
                self.process.stdin.close()
                rest = await self.output.to_the_end()
            except Gone as gone:
                rest = gone.lines
            self.journal.add(rest, time.time(), False)
        await self.process.wait()
        await asyncio.wait([self.hearing], timeout=0.5)

    def kill(self) -> None:
        if self.process.returncode is None:
            self.process.kill()
