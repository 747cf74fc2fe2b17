"""What a course decides from the words of the cells, and the sign of two. Written from docs/COMMANDS.md (*compare*) alone."""
from __future__ import annotations

import re
from collections import Counter
from itertools import product

# A cell of a map.
Cell = tuple[int, int]

# A rule that is asked: its cell and its limit, if it has a quota, and its verdict.
Step = tuple[tuple[Cell, int] | None, int]


def steps_of(text: str) -> list[Step]:
    """A course as `map` and `compare` print it."""
    steps: list[Step] = []
    for part in text.split(" else "):
        found = re.fullmatch(r"(?:(\d+):(\d+):(\d+) )?verdict (\d+) (?:rule \d+|no rule)", part)
        if found is None:
            raise ValueError(f"no course: {text}")
        quota = None if found[1] is None else ((int(found[1]), int(found[2])), int(found[3]))
        steps.append((quota, int(found[4])))
    return steps


def verdict(course: list[Step], words: dict[Cell, int]) -> int:
    """The verdict of a course from these words."""
    drawn: Counter[Cell] = Counter()
    for quota, own in course:
        if quota is None:
            return own
        cell, limit = quota
        if words[cell] + drawn[cell] < limit:
            return own
        drawn[cell] += 1
    return 10


def sign(old: list[Step], new: list[Step]) -> str:
    """Which of two courses lets a command pass that the other does not, from words at which some rule begins not to match."""
    limits: dict[Cell, set[int]] = {}
    for quota, _ in old + new:
        if quota is not None:
            cell, limit = quota
            limits.setdefault(cell, {0}).update(max(0, limit - draws) for draws in range(len(old) + len(new)))
    more = fewer = False
    for values in product(*(sorted(limits[cell]) for cell in limits)):
        words = dict(zip(limits, values))
        passes = [verdict(course, words) == 0 for course in (old, new)]
        more, fewer = more or passes == [False, True], fewer or passes == [True, False]
    return {(True, False): "+", (False, True): "-", (True, True): "+-", (False, False): "~"}[more, fewer]
