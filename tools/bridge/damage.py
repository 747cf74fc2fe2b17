"""Damage on demand: what leaves in place of a reply."""
from __future__ import annotations

import random
from typing import Callable, Optional

from .digits import decimal
from .packets import crc, head_of
from .telling import Misuse, print_error

EOP, EEP = b" EOP", b" EEP"
# Seconds that a late reply is late.
LATE = 1.0

Packets = list[tuple[float, bytes, bytes]]


def flipped(reply: bytes, place: int) -> bytes:
    return reply[:place] + bytes([reply[place] ^ 1]) + reply[place + 1:]


def of_other(reply: bytes) -> bytes:
    """The reply to a command with the next transaction identifier, in order but for that."""
    start, end = head_of(reply)
    other = (int.from_bytes(reply[start + 5:start + 7], "big") + 1 & 0xFFFF).to_bytes(2, "big")
    head = reply[start:start + 5] + other + reply[start + 7:end - 1]
    return reply[:start] + head + bytes([crc(head)]) + reply[end:]


# What leaves in place of a reply: for each packet the seconds that it waits, its bytes and its end.
WAYS: dict[str, Callable[[bytes], Packets]] = {
    "cut": lambda reply: [(0, reply[:len(reply) // 2], EOP)],
    "header": lambda reply: [(0, flipped(reply, head_of(reply)[0] + 3), EOP)],
    "data": lambda reply: [(0, flipped(reply, head_of(reply)[1]), EOP)],
    "eep": lambda reply: [(0, reply, EEP)],
    "late": lambda reply: [(LATE, reply, EOP)],
    "twice": lambda reply: [(0, reply, EOP)] * 2,
    "never": lambda reply: [],
    "other": lambda reply: [(0, of_other(reply), EOP)],
}


class Rule:
    """One WHAT:N. It counts the replies that it can spoil: of `data` those that have data."""

    def __init__(self, text: str):
        self.what, _, often = text.partition(":")
        self.by_chance = often.startswith("r")
        count = decimal(often[self.by_chance:], 10**9)
        if self.what not in WAYS or not count:
            raise Misuse(f"--spoil {text[:80]}: WHAT:N or WHAT:rN, WHAT is {', '.join(WAYS)}, and N at least 1")
        self.often, self.count = count, 0

    def is_due(self, reply: bytes, chance: random.Random) -> bool:
        if self.what == "data" and head_of(reply)[1] + 1 >= len(reply):
            return False
        self.count += 1
        return chance.randrange(self.often) == 0 if self.by_chance else self.count % self.often == 0


class Spoiler:
    """Decides what leaves in place of each reply."""

    def __init__(self, text: Optional[str], seed: int):
        self.rules = [Rule(word) for word in text.split(",")] if text is not None else []
        self.chance = random.Random(seed)

    def packets(self, port: int, reply: bytes) -> Packets:
        due = [rule.what for rule in self.rules if rule.is_due(reply, self.chance)]
        if not due:
            return [(0, reply, EOP)]
        print_error(f"spoilt {due[0]}: {port} {reply.hex().upper()}\n".encode())
        return WAYS[due[0]](reply)
