#!/usr/bin/env python3
"""Random policy tables of version 2, and random conditions of commands: each command that meets them lies in one line of `map` with these
options, with the rules that are asked of it, and no other command lies in one; `compare` has no line of another command, and each word that
was asked for is written as it was. What the options mean was written from docs/COMMANDS.md alone."""
from __future__ import annotations

import sys
from collections import Counter
from dataclasses import dataclass
from pathlib import Path
from random import Random

sys.dont_write_bytecode = True
sys.path[:0] = [str(Path(__file__).resolve().parent), str(Path(__file__).resolve().parent.parent)]
from generator import main
from models.policies import port_table
from port_charts import EXTENDED, KEYS, MAPS, NAMED, PORTS, Asked, Line, Point, course_of, line_of, lines_with, point, read, text_of
from rmapctl import Differs, Room

# How many tables the gate makes, how many rules at most each has, and how many points are asked of each.
TABLES, RULES, POINTS = 500, 9, 40

# What the runs have to come to, and how often.
KINDS = {"points that are asked of": 3_000, "others": 3_000, "ports": 100, "addresses": 100, "keys": 100, "kinds": 100, "lines": 1_000, "same": 20,
         "lines of comparisons": 300}


@dataclass(frozen=True)
class Question:
    """The conditions of a command; one of None is any."""
    kind: str | None
    fields: list[int | None]
    low: int
    high: int
    addresses: str | None
    port: int | None

    def words(self) -> list[str]:
        named = zip(("--key", "--initiator", "--extended"), self.fields)
        words = [] if self.kind is None else ["--kind", self.kind]
        for name, byte in named:
            words += [] if byte is None else [name, f"{byte:02X}"]
        words += [] if self.addresses is None else ["--address", self.addresses]
        return words + ([] if self.port is None else ["--port", str(self.port)])

    def has(self, it: Point) -> bool:
        return (self.kind in (None, it.kind) and self.low <= it.first and it.last <= self.high and self.port in (None, it.port)
                and all(wanted in (None, byte) for wanted, byte in zip(self.fields, (it.key, it.initiator, it.extended))))


def question(random: Random, table: list[Asked]) -> Question:
    """Up to three conditions."""
    kind, fields, low, high, addresses, port = None, [None, None, None], 0, 0xFFFFFFFF, None, None
    for which in random.sample(range(6), random.randrange(1, 4)):
        if which == 0:
            kind = random.choice(["read", "write", "rmw"])
        elif which < 4:
            fields[which - 1] = random.choice(EXTENDED if which == 3 else KEYS)
        elif which == 4:
            it = point(random, [table])
            low, high = it.first, random.choice([it.first, it.last, min(it.first + 4096, 0xFFFFFFFF)])
            addresses = f"{low:08X}" if low == high and random.randrange(2) else f"{low:08X}-{high:08X}"
        else:
            port = random.choice(PORTS)
    return Question(kind, fields, low, high, addresses, port)


def near(random: Random, asked: Question, it: Point) -> Point:
    """A point that meets most of the conditions."""
    fields = [byte if wanted is None or random.randrange(6) == 0 else wanted for wanted, byte in zip(asked.fields, (it.key, it.initiator, it.extended))]
    first, last, kind = it.first, it.last, it.kind
    if asked.kind is not None and random.randrange(6):
        kind, last = asked.kind, first if asked.kind == "rmw" else last
    if asked.addresses is not None and random.randrange(6):
        first = random.randint(asked.low, asked.high)
        last = random.randint(first, min(asked.high, first + 4095))
        last = min(last, first + random.choice([0, 1, 3, 5, 7])) if kind == "rmw" else last
        last = first if kind == "rmw" and last - first not in (0, 1, 3, 5, 7) else last
    port = it.port if asked.port is None or random.randrange(6) == 0 else asked.port
    return Point(port, kind, *fields, first, last)


def lines_asked(asked: Question, lines: list[Line], it: Point) -> list[int]:
    """The places of the lines that have a command; `else` is of the addresses that are asked of."""
    inside = asked.low <= it.first and it.last <= asked.high
    return [at for at in lines_with(lines, it) if inside or lines[at].addresses != "else"]


def as_asked(asked: Question, line: Line) -> None:
    """Raises Differs if a word that was asked for is written otherwise."""
    words = [(asked.kind, line.kinds)] + [(None if byte is None else f"{byte:02X}", word)
                                          for byte, word in zip(asked.fields, (line.key, line.initiator, line.extended))]
    words.append((None if asked.port is None else str(asked.port), line.ports))
    for wanted, word in words:
        if wanted is not None and wanted != word:
            raise Differs(f"{line}: {word}, asked for {wanted}")


def check(random: Random, room: Room, seen: Counter[str]) -> None:
    texts = [port_table(random, random.randrange(RULES), NAMED)[1] for _ in range(2)]
    tables = [read(text) for text in texts]
    for name, text in zip(("old", "new"), texts):
        room.put(name, text)
    asked = question(random, tables[0])
    seen["ports"] += asked.port is not None
    seen["addresses"] += asked.addresses is not None
    seen["keys"] += asked.fields[0] is not None
    seen["kinds"] += asked.kind is not None
    told = [text.partition(" : ") for text in room.printed("map", "old", *MAPS, *asked.words()).splitlines()]
    lines = [line_of(words.split()) for words, _, _ in told]
    done = room.job("compare", "old", "new", *MAPS, *asked.words())
    differences = [] if done.status == 0 else done.out.decode().splitlines()
    seen["same"] += done.out == b"same\n"
    others = [line_of(head.split()[1:]) for head in differences[::4]]
    seen["lines"] += len(lines)
    seen["lines of comparisons"] += len(others)
    for line in lines + others:
        as_asked(asked, line)
    for _ in range(POINTS):
        it = near(random, asked, point(random, tables))
        found = lines_asked(asked, lines, it)
        if not asked.has(it):
            seen["others"] += 1
            if found or lines_asked(asked, others, it):
                raise Differs(f"{asked.words()}: a line has {it}")
            continue
        seen["points that are asked of"] += 1
        wanted = text_of(course_of(tables[0], it))
        if len(found) != 1 or told[found[0]][2] != wanted:
            raise Differs(f"map {asked.words()} of {it}: {[told[at] for at in found]}, wanted {wanted}")
        apart = lines_asked(asked, others, it)
        both = [text_of(course_of(table, it)) for table in tables]
        if len(apart) > 1 or apart and [differences[4 * apart[0] + row][8:] for row in (1, 2)] != both:
            raise Differs(f"compare {asked.words()} of {it}: {apart}, wanted {both}")


if __name__ == "__main__":
    main(__doc__, check, TABLES, KINDS)
