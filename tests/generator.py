"""What the programs of tests/generated share: their words, their runs, and their last line.

Usage: tests/generated/NAME.py [--program FILE] [--seed N] [--runs N]

Run I, from 0, makes its jobs from the seed N + I: so `--seed S --runs 1` does one run again. The default runs are those of the
gate. What is done once, whatever the seed, comes before them. Prints what differs, and what the runs have to come to and did not;
the last line is `N passed, M failed`. The status is 1 where M is not 0, and 2 where there is no program.
"""
from __future__ import annotations

import argparse
import os
import sys
from collections import Counter
from collections.abc import Callable, Iterable, Mapping
from pathlib import Path
from random import Random

from rmapctl import PROVED, Differs, Room

# One run: it does jobs in a room, raises Differs, and counts what it comes to.
Check = Callable[[Random, Room, Counter[str]], None]

# What is done once: it yields what differs in each of its jobs, or None.
Once = Callable[[Room], Iterable[str | None]]


def words(about: str, runs: int) -> argparse.Namespace:
    """The words of the command line."""
    parser = argparse.ArgumentParser(description=about, epilog=__doc__.split("\n\n", 2)[2],
                                     formatter_class=argparse.RawDescriptionHelpFormatter)
    parser.add_argument("--program", metavar="FILE", default=PROVED, type=Path)
    parser.add_argument("--seed", metavar="N", default=1, type=int)
    parser.add_argument("--runs", metavar="N", default=runs, type=int)
    given = parser.parse_args()
    if not os.access(given.program, os.X_OK) or given.program.is_dir():
        parser.error(f"there is no program {given.program}")
    return given


def difference(check: Check, seed: int, program: Path, seen: Counter[str]) -> str | None:
    """What differs in the run of this seed, or None."""
    try:
        with Room(program.resolve()) as room:
            check(Random(seed), room, seen)
    except (Differs, OSError) as error:
        return f"seed {seed}: {error}"
    return None


def same_lines(what: str, came: str | list[str], wanted: list[str]) -> None:
    """Raises Differs at the first line that is another than is wanted."""
    lines = came.splitlines() if isinstance(came, str) else came
    for number, (line, other) in enumerate(zip(lines, wanted), 1):
        if line != other:
            raise Differs(f"{what}, line {number}: {line}\nwanted: {other}")
    if len(lines) != len(wanted):
        raise Differs(f"{what}: {len(lines)} lines, wanted {len(wanted)}")


def done_once(once: Once, program: Path) -> list[str | None]:
    """What differs in each job that is done once."""
    with Room(program.resolve()) as room:
        return [text and f"{once.__name__}: {text}" for text in once(room)]


def main(about: str, check: Check, runs: int, kinds: Mapping[str, int] | Iterable[str] = (), once: Iterable[Once] = ()) -> None:
    """Does the runs, and ends the program. By default so many; these then come to each of the kinds, as often as is given."""
    given = words(about, runs)
    seen: Counter[str] = Counter()
    found = [text for it in once for text in done_once(it, given.program)]
    found += [difference(check, given.seed + run, given.program, seen) for run in range(given.runs)]
    least = kinds if isinstance(kinds, Mapping) else dict.fromkeys(kinds, 1)
    found += [None if seen[kind] >= count else f"runs came to {seen[kind]} of at least {count}: {kind}"
              for kind, count in least.items() if given.runs >= runs]
    for text in filter(None, found):
        print(text)
    passed, failed = found.count(None), len(found) - found.count(None)
    print(f"{passed} passed, {failed} failed")
    sys.exit(int(failed > 0))
