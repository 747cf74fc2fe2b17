"""Clients of a target over TCP, in lines and in frames (docs/LIVE.md)."""
from __future__ import annotations

import socket
import time
from typing import Iterable, Iterator, Optional, Union

from .journals import Damaged, Entry, damaged_of, entry_of
from .loads import load
from .packets import wants_reply
from .words import DISCARDS, LINES, said

_HEAD = 12
_FLAGS = {"EOP": 0, "EEP": 1, "PART": 2}
# No line that a target sends is longer: 512 cells of 20 digits, or a packet line with what is before it. No packet is longer than a
# reply with 2^24 bytes of data.
_LONGEST_LINE, _LONGEST_PACKET = 65536, 2**24 + 1024


class LinkFault(Exception):
    """The target cannot be reached, has closed the connection, or answers what is no answer, or not in time."""


class Discarded(Exception):
    """The target discarded the packet, since it is no command: `reason` is 1 to 4 (`rmapctl explain discardC`)."""

    def __init__(self, reason: int):
        self.reason = reason
        super().__init__(f"discarded, reason {reason}: {said(DISCARDS, reason)}")


class BadLine(Exception):
    """The target did not take a line: `fault` is 1 to 7 (`rmapctl explain lineC`)."""

    def __init__(self, line: str, fault: int):
        self.fault = fault
        super().__init__(f"line fault {fault}, {said(LINES, fault)}: {line[:80]}")


class _Link:
    """A connection over which each call has a time at which it ends, whatever comes. Without a time it waits."""

    def __init__(self, host: str, port: int, timeout: Optional[float]):
        try:
            self._socket = socket.create_connection((host, port), timeout)
        except (OSError, UnicodeError) as error:
            raise LinkFault(f"{host}:{port}: {getattr(error, 'strerror', None) or error}") from None
        self._socket.setsockopt(socket.IPPROTO_TCP, socket.TCP_NODELAY, 1)
        self._timeout, self._held = timeout, bytearray()

    def _end(self, wait: Optional[float] = None) -> Optional[float]:
        seconds = self._timeout if wait is None else wait
        return None if seconds is None else time.monotonic() + seconds

    def _put(self, data: bytes) -> None:
        try:
            self._socket.settimeout(self._timeout)
            self._socket.sendall(data)
        except OSError as error:
            raise LinkFault(error.strerror or str(error)) from None

    def _more(self, end: Optional[float]) -> bool:
        """Takes what comes, and says whether anything came in time."""
        left = None if end is None else end - time.monotonic()
        if left is not None and left <= 0:
            return False
        try:
            self._socket.settimeout(left)
            more = self._socket.recv(65536)
        except (TimeoutError, socket.timeout, BlockingIOError):
            return False
        except OSError as error:
            raise LinkFault(error.strerror or str(error)) from None
        if not more:
            raise LinkFault("the target has closed the connection")
        self._held += more
        return True

    def close(self) -> None:
        self._socket.close()

    def __enter__(self):
        return self

    def __exit__(self, *_: object) -> None:
        self.close()


def _is_over(end: Optional[float]) -> bool:
    return end is not None and time.monotonic() >= end


class Lines(_Link):
    """A talk in lines, with `rmapctl live` or `tools/share`. Entries that come by themselves are added to `entries`. `damaged` is how
    many entries came as damaged, since a bit of them flipped in the target's memory. `scrubs` has the slot and the state,
    `mended` or `withdrawn`, of each line `journal scrub SLOT STATE` that came (`live --scrub N`).

    Each call ends within `timeout` seconds, whatever the target sends; with None it waits. What is no answer raises LinkFault."""

    def __init__(self, host: str = "127.0.0.1", port: int = 10031, timeout: Optional[float] = 20):
        super().__init__(host, port, timeout)
        self.entries: list[Entry] = []
        self.damaged = 0
        self.scrubs: list[tuple[int, str]] = []
        self._bank = 0

    def _keep(self, line: str) -> None:
        """Adds what a line of a journal says."""
        words = line.split(" ")
        try:
            if words[0] == "bank":
                self._bank = int(words[1], 16)
            elif words[:2] == ["journal", "scrub"]:
                _, _, slot, state = words
                self.scrubs.append((int(slot), state))
            elif isinstance(damaged_of(line, self._bank), Damaged):
                self.damaged += 1
            elif not line.endswith(" entries"):
                self.entries.append(entry_of(line, self._bank))
        except (ValueError, IndexError):
            raise LinkFault(f"no line of a journal: {line[:80]}") from None

    def send(self, line: str) -> None:
        self._put(line.encode("ascii") + b"\n")

    def receive(self) -> str:
        """The next line."""
        return self._receive(self._end())

    def _receive(self, end: Optional[float]) -> str:
        while (place := self._held.find(b"\n")) < 0:
            if len(self._held) > _LONGEST_LINE:
                raise LinkFault(f"a line of over {_LONGEST_LINE} bytes")
            if not self._more(end):
                raise LinkFault(f"no whole line within {self._timeout:g} seconds")
        line = bytes(self._held[:place])
        del self._held[:place + 1]
        if not line.isascii():
            raise LinkFault(f"a line with bytes that are no text: {line[:40]!r}")
        return line.decode("ascii")

    def _answer(self, end: Optional[float]) -> str:
        """The next line that is none of a journal."""
        while not _is_over(end):
            line = self._receive(end)
            if not line.startswith(("journal ", "bank ", "entry ")):
                return line
            self._keep(line)
        raise LinkFault(f"no answer within {self._timeout:g} seconds")

    def ask_line(self, line: str) -> str:
        """The answer to a line that has one, as a packet line has that ends in EOP or EEP."""
        self.send(line)
        answer = self._answer(self._end())
        words = answer.split(" ")
        if words[0] == "line":
            if len(words) != 4 or words[2] != "fault" or words[3] not in map(str, LINES):
                raise LinkFault(f"no answer to a line: {answer[:80]}")
            raise BadLine(line, int(words[3]))
        return answer

    def ask(self, packet: bytes, port: int = 0, end: str = "EOP") -> Optional[bytes]:
        """The reply to a packet, or None if none is due."""
        answer = self.ask_line(f"{port} {packet.hex()} {end}")
        words = answer.split(" ")
        if words == [str(port), "-"]:
            return None
        if len(words) == 3 and words[0] == str(port):
            if words[1] == "discard" and words[2] in ("1", "2", "3", "4"):
                raise Discarded(int(words[2]))
            if words[2] in _FLAGS and words[2] != "PART" and (reply := _bytes_of(words[1])):
                return reply
        raise LinkFault(f"no answer to a packet at port {port}: {answer[:80]}")

    def load(self, image: bytes, slots: Union[str, int, Iterable[int]] = "all", port: int = 0, **fields: int) -> list[int]:
        """Loads an image into slots and gives the generation of each, as `load` does."""
        return load(self, image, slots, port, **fields)

    def journal(self) -> list[Entry]:
        """Has the journal of each bank handed out: these entries, and those that came by themselves before, are gone from the target.
        What comes of `cells` is after all of them."""
        self.send("journal")
        self.cells()
        entries, self.entries = self.entries, []
        return entries

    def cells(self) -> list[list[int]]:
        """The words of the cells of each map."""
        self.send("cells")
        maps: list[list[int]] = []
        end = self._end()
        while True:
            words = self._answer(end).split(" ")
            try:
                if words[0] != "cells":
                    raise ValueError
                if words[2:] == ["maps"]:
                    if int(words[1]) != len(maps):
                        raise ValueError
                    return maps
                if int(words[1]) != len(maps):
                    raise ValueError
                maps.append([_word_of(word) for word in words[2:]])
            except (ValueError, IndexError):
                raise LinkFault(f"no line of cells: {' '.join(words)[:80]}") from None

    def set(self, address: int, data: bytes, extended: int = 0) -> None:
        """Puts bytes into memory, as the instrument does. The journal is handed out before, into `entries`."""
        answer = self.ask_line(f"set {extended:02X} {address:08X} {data.hex()}")
        if answer != f"set {len(data)}":
            raise LinkFault(f"no answer to set: {answer[:80]}")

    def watch(self) -> Iterator[str]:
        """The lines of all clients of `tools/share`, after `> `, and their answers, as they come."""
        self.send("watch")
        return self._lines()

    def _lines(self) -> Iterator[str]:
        while True:
            try:
                yield self._receive(None)
            except LinkFault:
                return


def _bytes_of(digits: str) -> Optional[bytes]:
    try:
        return bytes.fromhex(digits)
    except ValueError:
        return None


def _word_of(text: str) -> int:
    """A word of a cell: a decimal number below 2^64."""
    if not text.isdigit() or len(text) > 20 or int(text) >= 1 << 64:
        raise ValueError
    return int(text)


class Frames(_Link):
    """A talk in frames, with `rmapctl live --frames`, `tools/share --frames`, or another target after a bridge. Each call ends within
    `timeout` seconds, whatever the target sends; a packet that is longer than any reply raises LinkFault."""

    def __init__(self, host: str = "127.0.0.1", port: int = 10030, timeout: float = 20):
        super().__init__(host, port, timeout)
        self._packet = bytearray()

    def send(self, packet: bytes, end: str = "EOP") -> None:
        """Sends a packet, or with `PART` a piece of one."""
        self._put(bytes([_FLAGS[end], 0]) + len(packet).to_bytes(10, "big") + packet)

    def receive(self, wait: Optional[float] = None) -> Optional[tuple[bytes, str]]:
        """The next packet with its end, or None if none comes in that many seconds."""
        end = self._end(wait)
        while True:
            while (frame := self._frame()) is not None:
                flag, body = frame
                self._packet += body if flag <= 2 else b""
                self._look(len(self._packet))
                if flag <= 1:
                    packet, self._packet = bytes(self._packet), bytearray()
                    return packet, "EEP" if flag else "EOP"
                if _is_over(end):
                    return None
            if not self._more(end):
                return None

    def _frame(self) -> Optional[tuple[int, bytes]]:
        if len(self._held) < _HEAD:
            return None
        length = int.from_bytes(self._held[2:_HEAD], "big")
        self._look(length)
        if len(self._held) < _HEAD + length:
            return None
        flag, body = self._held[0], bytes(self._held[_HEAD:_HEAD + length])
        del self._held[:_HEAD + length]
        return flag, body

    def _look(self, length: int) -> None:
        if length > _LONGEST_PACKET:
            raise LinkFault(f"a packet of {length} bytes: no reply is longer than {_LONGEST_PACKET}")

    def ask(self, packet: bytes, port: int = 0, wait: Optional[float] = None) -> Optional[bytes]:
        """The next packet that comes after a command whose reply bit is set; None if none comes in time, or for others."""
        if port != 0:
            raise ValueError("a connection in frames is one port: dial another for another")
        self.send(packet)
        came = self.receive(wait) if wants_reply(packet) else None
        return came[0] if came else None

    def load(self, image: bytes, slots: Union[str, int, Iterable[int]] = "all", **fields: int) -> list[int]:
        """Loads an image into slots and gives the generation of each, as `load` does."""
        return load(self, image, slots, **fields)
