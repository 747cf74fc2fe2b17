"""The choices that the standard leaves to a target, and what is open by them."""
from __future__ import annotations

from dataclasses import dataclass
from typing import Optional

from sending.commands import Command, Reply, command_of, reply_of
from sending.lines import text_of
from sending.telling import Stop


# The status by which a choice ends a command.
STATUS = {"logical-address": 12, "rmw-lengths": 11, "verify-buffer": 9, "largest-length": 10, "key": 3, "word-width": 10}


@dataclass
class Profile:
    """The choices of a target. Those of this project's target are the defaults."""
    largest: int = 4096
    verify: int = 1024
    rmw: frozenset[int] = frozenset((0, 2, 4, 6, 8))
    width: int = 1
    key: Optional[int] = None
    addresses: Optional[frozenset[int]] = None
    asked_length: bool = False

    def choices(self, command: Command) -> list[str]:
        """The choices by which another than this project's target may end the command otherwise."""
        length = command.length
        found = {"logical-address": self.addresses is not None and command.target in self.addresses,
                 "rmw-lengths": command.is_rmw and (length in self.rmw) != (length in Profile.rmw),
                 "verify-buffer": command.code >= 12 and min(self.verify, 1024) < length <= max(self.verify, 1024),
                 "largest-length": not command.is_rmw and min(self.largest, 4096) < length <= max(self.largest, 4096),
                 "key": self.key is not None and command.key != self.key,
                 "word-width": bool(command.address % self.width or length % self.width)}
        return [name for name, is_there in found.items() if is_there]


def profile_of(name: str) -> Profile:
    profile = Profile()
    for number, text in enumerate(text_of(name), 1):
        words = text.split("#")[0].split()
        if words and (len(words) != 2 or not choose(profile, *words)):
            raise Stop(f"{name}, line {number}: no choice: {text[:60]}")
    return profile


def choose(profile: Profile, name: str, value: str) -> bool:
    """Takes a choice, and reports whether it is one."""
    try:
        if name == "largest-length":
            profile.largest = int(value)
        elif name == "verify-buffer":
            profile.verify = int(value)
        elif name == "rmw-lengths":
            profile.rmw = frozenset(int(word) for word in value.split(","))
        elif name == "word-width":
            profile.width = int(value)
        elif name == "key":
            profile.key = None if value == "any" else int(value, 16)
        elif name == "logical-address":
            profile.addresses = frozenset(int(word, 16) for word in value.split(","))
        elif name == "error-reply-length":
            profile.asked_length = {"zero": False, "asked": True}[value]
        else:
            return False
    except (ValueError, KeyError):
        return False
    return profile.width >= 1


class Opened:
    """What is open by the choices of a target: its commands, and the memory that they may have left otherwise."""

    def __init__(self, profile: Profile, node: Optional[int]):
        self.profile = profile
        if profile.addresses is not None and node is not None:
            profile.addresses = profile.addresses ^ {node}
        self.cells: dict[tuple[int, int], str] = {}
        self.window: Optional[str] = None

    def choice(self, packet: bytes, due: str, came: Optional[str]) -> Optional[str]:
        """Notes what comes of a packet, and names the choice by which it may differ, if it does and one is there."""
        command = command_of(packet)
        if command is None:
            return None
        names, right, found = self.profile.choices(command), reply_of(due, command), reply_of(came, command)
        self.note(command, names[0] if names else None, right, found)
        if due == (came or "-") or right is None or found is None:
            return None
        if right.status == found.status:
            return self.same_status(command, right, found)
        ended = [name for name in names if STATUS[name] in (right.status, found.status)]
        return ended[0] if ended else self.window if command.extended == 0xFF else None

    def same_status(self, command: Command, right: Reply, found: Reply) -> Optional[str]:
        if right.status != 0 and self.profile.asked_length and found.is_read and found.length == command.length:
            return "error-reply-length"
        if len(right.data) != len(found.data):
            return None
        step = 1 if command.code & 1 else 0
        for place, (one, other) in enumerate(zip(right.data, found.data)):
            cell = self.cells.get((command.extended, command.address + place * step))
            if one != other and cell is None and not (command.extended == 0xFF and self.window):
                return None
        return next(iter(self.cells.values()), self.window)

    def note(self, command: Command, own: Optional[str], right: Optional[Reply], found: Optional[Reply]) -> None:
        """Notes which memory is open after a command."""
        if not command.writes:
            return
        cells = [(command.extended, address) for address in command.cells()] if command.length <= 65536 else []
        same = right is not None and found is not None and right.status == found.status
        if own is not None and not (same and right is not None):
            self.cells.update((cell, own) for cell in cells)
            self.window = self.window or (own if command.extended == 0xFF else None)
        elif same and right is not None and right.status == 0 and not command.is_rmw:
            for cell in cells:
                self.cells.pop(cell, None)
