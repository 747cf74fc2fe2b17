"""What is said on standard error, how places and times are written, and why a bridge does not begin."""
from __future__ import annotations

import os
import sys
import time
from datetime import datetime, timezone

NAME = os.path.basename(sys.argv[0])
NAME = "tools/share" if NAME == "share" else NAME


class Misuse(Exception):
    """What the command line asks for cannot be had: the bridge does not begin, and ends with this status."""

    def __init__(self, text: str, status: int = 2):
        self.status = status
        super().__init__(text)


def print_error(text: bytes) -> None:
    """Puts bytes on standard error. If nobody can read them there, nothing else ends."""
    try:
        sys.stderr.buffer.write(text)
        sys.stderr.flush()
    except OSError:
        pass


def tell(text: object) -> None:
    """Prints a line on standard error, after the name of the bridge."""
    print_error(f"{NAME}: {text}\n".encode(errors="surrogateescape"))


def utc(seconds: float | None = None) -> str:
    """A time in UTC, to the millisecond; without seconds since 1970 it is now."""
    when = datetime.fromtimestamp(time.time() if seconds is None else seconds, timezone.utc)
    return when.isoformat(timespec="milliseconds").replace("+00:00", "Z")


def place(address: str, port: int) -> str:
    """An address with its port: one of IPv6 is in brackets."""
    return f"[{address}]:{port}" if ":" in address else f"{address}:{port}"
