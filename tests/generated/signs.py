#!/usr/bin/env python3
"""Random pairs of policy tables with quotas on a few cells: the sign of each line of `compare` is that of the two courses in it, by the
words of the cells, which are the same before both tables. The sign was written from docs/COMMANDS.md alone."""
from __future__ import annotations

import sys
from collections import Counter
from pathlib import Path
from random import Random

sys.dont_write_bytecode = True
sys.path.insert(0, str(Path(__file__).resolve().parent.parent))
from generator import main
from models.cells import sign, steps_of
from rmapctl import Differs, Room

# How many pairs of tables the gate makes, and how many rules a table has at most.
PAIRS, RULES = 2_000, 5

# What the runs have to come to, and how often.
KINDS = {"+": 250, "-": 250, "+-": 100, "~": 250, "same": 10}


def table(random: Random) -> list[str]:
    """The lines of a table, mostly with quotas."""
    lines = []
    for _ in range(random.randrange(RULES + 1)):
        quota = "-" if random.randrange(5) == 0 else f"0:{random.randrange(3)}:{random.choice([0, 1, 2, 3, 4, 2147483647])}"
        key = random.choice(["*", "*", "20"])
        lines.append(f"any {key} * * 00000000 FFFFFFFF {quota} {random.choice([0, 0, 3, 10])}")
    return lines


def changed(random: Random, lines: list[str]) -> list[str]:
    """A table that differs in a line or two, or another one."""
    new = list(lines)
    for _ in range(random.choice([1, 1, 2])):
        place = random.randrange(len(new) + 1)
        if new and random.randrange(2):
            new.pop(min(place, len(new) - 1))
        new[place:place] = table(random)[:1]
    return new[:RULES + 2] if random.randrange(4) else table(random)


def check(random: Random, room: Room, seen: Counter[str]) -> None:
    old = table(random)
    new = changed(random, old)
    for name, lines in (("old", old), ("new", new)):
        room.put(name, "".join(line + "\n" for line in lines))
    done = room.job("compare", "old", "new", "--maps", "3")
    told = done.out.decode().splitlines()
    if done.status == 0:
        seen["same"] += told == ["same"]
        return
    if done.status != 1 or len(told) % 4:
        raise Differs(f"compare: status {done.status}: {told}")
    for place in range(0, len(told), 4):
        courses = [steps_of(told[place + row].removeprefix(before)) for row, before in ((1, "    old "), (2, "    new "))]
        came, wanted = told[place].split()[0], sign(*courses)
        if came != wanted:
            raise Differs(f"compare: {told[place:place + 3]}, wanted {wanted}")
        seen[came] += 1


if __name__ == "__main__":
    main(__doc__, check, PAIRS, KINDS)
