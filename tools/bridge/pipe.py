"""The reading end of a pipe, line by line."""
from __future__ import annotations

import asyncio
import collections
import os
import select

CHUNK = 65536
# So many milliseconds it waits for bytes before others have their turn: most answers come sooner than a turn of the loop takes.
BRIEFLY = 1
# After so many bytes at once others have their turn.
MUCH = 16384


class LinePipe:
    """Lines that come by a pipe."""

    def __init__(self, handle: int):
        os.set_blocking(handle, False)
        self.handle, self.is_over, self.rest = handle, False, b""
        self.lines: collections.deque[bytes] = collections.deque()
        self.poll = select.poll()
        self.poll.register(handle, select.POLLIN)

    async def line(self) -> bytes:
        """The next line with its line feed; at the end what comes after the last line feed, and then nothing."""
        while not self.lines and not self.is_over:
            await self.read()
        if self.lines:
            return self.lines.popleft() + b"\n"
        rest, self.rest = self.rest, b""
        return rest

    async def to_the_end(self) -> list[bytes]:
        """All lines up to the end."""
        lines = []
        while line := await self.line():
            lines.append(line)
        return lines

    async def read(self) -> None:
        """Reads the next bytes, or the end."""
        if not self.poll.poll(BRIEFLY):
            await self.readable()
        try:
            chunk = os.read(self.handle, CHUNK)
        except BlockingIOError:
            return
        self.is_over = not chunk
        *lines, self.rest = (self.rest + chunk).split(b"\n")
        self.lines.extend(lines)
        if len(chunk) >= MUCH:
            await asyncio.sleep(0)

    async def readable(self) -> None:
        loop = asyncio.get_running_loop()
        ready = loop.create_future()
        loop.add_reader(self.handle, lambda: ready.done() or ready.set_result(None))
        try:
            await ready
        finally:
            loop.remove_reader(self.handle)
