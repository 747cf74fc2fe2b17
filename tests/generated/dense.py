#!/usr/bin/env python3
"""Tables of twelve rules that each name another field, with ranges that overlap and quotas of a few cells: `compare` ends in a stack of
512 kB, and `decide` comes to the verdicts that it prints of each packet that the node brings to its table and no quota decides.

The five pairs of tests/dense are compared first: each has so many differences.
"""
from __future__ import annotations

import re
import sys
from collections import Counter
from collections.abc import Iterator
from pathlib import Path
from random import Random

sys.dont_write_bytecode = True
sys.path.insert(0, str(Path(__file__).resolve().parent.parent))
from generator import main
from rmapctl import Differs, Room

# How many pairs the gate makes, and of how many rules a table is.
PAIRS, RULES = 4, 12

# The five pairs, and how many differences each has.
STORED = {"all1": 1011, "deep": 260, "small": 3532, "third0": 1508, "third1": 1782}
FOLDER = Path(__file__).resolve().parent.parent / "dense"

NODE = ["--maps", "6"]

# What a course without a quota says, and the packet of a line that is brought to the table at once.
COURSE = re.compile(r"    (?:old|new) verdict (\d+) (?:rule \d+|no rule)$")
PACKET = re.compile(r"    (0 [0-9A-F]+ EOP)$")
VERDICT = re.compile(r" verdict (\d+)(?:[,: ]|$)")


def rule(random: Random) -> str:
    """A rule that names one field, and addresses from or to somewhere."""
    fields = ["*", "*", "*"]
    fields[random.randrange(3)] = f"{random.randrange(1, 32):02X}"
    low = 0xA0000000 + random.randrange(0x4000)
    high = low + random.randrange(1, 0x3000)
    low, high = random.choice([(0, high), (low, 0xFFFFFFFF), (low, high)])
    drawn = random.random() < 0.3
    quota = f"0:{random.randrange(6)}:{random.randrange(1, 100)}" if drawn else "-"
    verdict = random.choice([0, 10] if drawn else [0, 3, 10, 12])
    return f"{random.choice(['any', 'any', 'read', 'write'])} {' '.join(fields)} {low:08X} {high:08X} {quota} {verdict}\n"


def table(random: Random) -> str:
    """A table."""
    return "".join(rule(random) for _ in range(RULES))


def differences(room: Room) -> list[list[str]]:
    """The lines of each difference of the tables `old` and `new`; none, if they are the same."""
    done = room.job("compare", "old", "new", *NODE)
    lines = done.out.decode().splitlines()
    if done.status == 0 and lines == ["same"]:
        return []
    if done.status != 1 or len(lines) % 4:
        raise Differs(f"compare: status {done.status}, {len(lines)} lines")
    return [lines[at : at + 4] for at in range(0, len(lines), 4)]


def decided(room: Room, name: str) -> list[str]:
    """The verdicts that `decide` tells of the packets."""
    lines = room.printed("decide", "packets", name, *NODE).splitlines()
    return [found[1] for found in map(VERDICT.search, lines) if found]


def check(random: Random, room: Room, seen: Counter[str]) -> None:
    """Two tables."""
    room.put("old", table(random))
    room.put("new", table(random))
    found = differences(room)
    seen["differences"] += len(found)
    plain = [(PACKET.match(it[3]), COURSE.match(it[1]), COURSE.match(it[2])) for it in found]
    rows = [(packet[1], old[1], new[1]) for packet, old, new in plain if packet and old and new]
    room.put("packets", "".join(f"{packet}\n" for packet, _, _ in rows))
    for place, name in ((1, "old"), (2, "new")):
        wanted = [row[place] for row in rows]
        came = decided(room, name) if rows else []
        if came != wanted:
            raise Differs(f"{name}: decide does not come to the verdicts of compare")
    seen["decided"] += len(rows)


def stored(room: Room) -> Iterator[str | None]:
    """The five pairs."""
    for name, count in STORED.items():
        for end in ("old", "new"):
            room.put(end, (FOLDER / f"{name}.{end}").read_text(encoding="utf-8"))
        try:
            came = len(differences(room))
        except Differs as error:
            yield f"{name}: {error}"
            continue
        yield None if came == count else f"{name}: {came} differences, wanted {count}"


main(__doc__, check, PAIRS, {"differences": 1000, "decided": 100}, [stored])
