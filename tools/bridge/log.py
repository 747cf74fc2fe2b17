"""What happens at a bridge: a line an event, and how many there were of each."""
from __future__ import annotations

import collections
from typing import Optional

from .files import LineFile
from .telling import print_error, utc

EVENTS = ("begin", "connect", "leave", "discard", "frame", "load", "set", "slow", "full", "end")


class Log:
    """Counts events, and writes of each a line: its time in UTC, the event with its words, and the address of the client."""

    def __init__(self, file: Optional[LineFile], is_verbose: bool):
        self.file, self.is_verbose = file, is_verbose
        self.counts = collections.Counter(dict.fromkeys(EVENTS, 0))

    def note(self, event: str, *words: object, peer: str = "") -> None:
        self.counts[event] += 1
        if self.file is None and not self.is_verbose:
            return
        line = " ".join(str(word) for word in (utc(), event, *words, peer) if word != "").encode() + b"\n"
        if self.file:
            self.file.add([line])
        else:
            print_error(line)
