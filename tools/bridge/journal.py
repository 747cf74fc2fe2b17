"""The entries of the node's journals: when their packets came, and where they go."""
from __future__ import annotations

import collections
import time
from typing import Optional

from .files import LineFile
from .telling import print_error, utc

# How lines of the journal begin that are no answer of a client's own, and how that of a journal ends which was handed out.
HANDED_OUT = (b"journal ", b"bank ", b"entry ")
END_OF_JOURNAL = b" entries\n"
# The bytes of a packet that matter: of a longer one the first are kept, in hexadecimal digits.
MOST_DIGITS = 2 * 4200


def entries_of(lines: list[bytes]) -> list[bytes]:
    """The entries among lines: what begins and ends the journal of a bank is none."""
    return [line for line in lines
            if line.startswith(b"entry ") or line.startswith(b"journal ") and not line.endswith(END_OF_JOURNAL)]


class Arrivals:
    """When the packets came whose entries the node still holds, in the order in which it served them."""

    def __init__(self) -> None:
        self.served: collections.deque[tuple[float, int]] = collections.deque()

    def note(self, came: float, port: int, digits: bytes, end: bytes) -> None:
        """Notes a packet that was not discarded."""
        self.served.append((came, hash((port, digits, end))))

    def of(self, entry: bytes) -> float:
        """When the packet of an entry came; of one that is damaged, and of a scrub, now. The packets before it left none."""
        words = entry.split()
        wanted = hash((int(words[1]), words[-2], words[-1])) if len(words) > 4 else None
        for place, (came, packet) in enumerate(self.served):
            if packet == wanted:
                for _ in range(place + 1):
                    self.served.popleft()
                return came
        return time.time()


class Journal:
    """Adds each entry to a file, after the time at which its packet came; without a file to standard error."""

    def __init__(self, file: Optional[LineFile]):
        self.file, self.arrivals, self.count = file, Arrivals(), 0

    def begin(self, version: str, node_sum: str) -> None:
        if self.file:
            self.file.add([f"{utc()} begin {version} {node_sum}\n".encode()])

    def add(self, lines: list[bytes], came: float, is_asked: bool) -> None:
        """Adds the entries among lines. Those that a client asked for need no other place if there is no file."""
        entries = entries_of(lines)
        if not entries:
            return
        self.count += len(entries)
        times = [came if entry.startswith(b"entry ") else self.arrivals.of(entry) for entry in entries]
        left = [utc(when).encode() + b" " + entry for when, entry in zip(times, entries)]
        if self.file:
            self.file.add(left)
        elif not is_asked:
            print_error(b"".join(left))
