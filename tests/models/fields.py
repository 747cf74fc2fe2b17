"""The fields of a command, from docs/PROTOCOL.md (*Commands*) alone: what its bytes say, and nothing of what becomes of it."""
from __future__ import annotations

from dataclasses import dataclass


@dataclass(frozen=True)
class Fields:
    """The bytes of a packet, and whether it ended as it should."""
    data: bytes
    is_whole: bool = True

    def line(self, port: int) -> str:
        """Its packet line."""
        digits = f"{self.data.hex().upper()} " if self.data else ""
        return f"{port} {digits}{'EOP' if self.is_whole else 'EEP'}"

    @property
    def instruction(self) -> int:
        return self.data[2]

    @property
    def code(self) -> int:
        """The command code."""
        return self.instruction // 4 % 16

    @property
    def way(self) -> int:
        """How many bytes the reply address has."""
        return 4 * (self.instruction % 4)

    @property
    def begin(self) -> int:
        """Where the body begins."""
        return 16 + self.way

    def field(self, place: int, size: int) -> int:
        """A field behind the reply address."""
        return int.from_bytes(self.data[self.way + place:self.way + place + size], "big")

    @property
    def extended(self) -> int:
        return self.field(7, 1)

    @property
    def address(self) -> int:
        return self.field(8, 4)

    @property
    def length(self) -> int:
        return self.field(12, 3)

    def has(self, bit: int) -> bool:
        return bool(self.instruction & bit)
