#!/usr/bin/env python3
"""Standard output that takes nothing: a full device, a closed one, and a pipe that nobody reads any more. Whatever a job prints, it then
ends with status 1, and the system's own words are told only if there is a fault. docs/COMMANDS.md, *Exit status*, says what is due."""
from __future__ import annotations

import os
import subprocess
import sys
from collections import Counter
from collections.abc import Iterator
from pathlib import Path
from random import Random

sys.dont_write_bytecode = True
sys.path.insert(0, str(Path(__file__).resolve().parent.parent))
from generator import main
from rmapctl import SECONDS, Differs, Room

RUNS = 60
WAYS = ["full", "closed", "unread"]
LOST = b"cannot write standard output\n"
LINE = "0 FE01480067000100A000000000000417 EOP\n"
TABLE = "any * * FF 00000000 FFFFFFFF - 0\n"
TEXT = ".budget 2\nmov r0, 0\nexit\n"

# Jobs of each kind that print: a text, a job that is done, one whose fault is printed, one for the node of a file, talks, and lines of
# standard input that are told as they come.
JOBS: list[tuple[tuple[str, ...], str]] = [
    (("help",), ""),
    (("--version",), ""),
    (("help", "judge"), ""),
    (("explain",), ""),
    (("judge", "lines"), ""),
    (("judge", "-"), LINE),
    ((), LINE),
    (("judge", "none"), ""),
    (("sim", "none"), ""),
    (("serve", "lines"), ""),
    (("show", "lines"), ""),
    (("show", "-"), LINE),
    (("show", "-"), "0 nothing\n"),
    (("asm", "text", "text"), ""),
    (("verify", "none", "--node", "none"), ""),
    (("policy", "table", "image", "--node", "none"), ""),
    (("map", "table"), ""),
    (("compare", "table", "table"), ""),
    (("live",), LINE),
    (("live",), "nothing\n"),
]


def put_files(room: Room) -> None:
    """The files that jobs read."""
    room.put("lines", LINE)
    room.put("table", TABLE)
    room.put("text", TEXT)


def lost(room: Room, way: str, words: tuple[str, ...], given: str) -> tuple[int, bytes]:
    """The status of a job whose standard output takes nothing, and what is told."""
    command = [room.program, *words]
    if way == "closed":
        command = ["sh", "-c", 'exec "$0" "$@" >&-', *command]
    if way == "unread":
        theirs, out = os.pipe()
        os.close(theirs)
    else:
        out = os.open("/dev/full", os.O_WRONLY)
    try:
        done = subprocess.run(command, cwd=room.folder, input=given.encode(), stdout=out, stderr=subprocess.PIPE, timeout=SECONDS)
    finally:
        os.close(out)
    return done.returncode, done.stderr


def check(random: Random, room: Room, seen: Counter[str]) -> None:
    """A job of each kind, in a way that is drawn."""
    put_files(room)
    way = random.choice(WAYS)
    words, given = random.choice(JOBS)
    status, told = lost(room, way, words, given)
    if status != 1:
        raise Differs(f"$ {' '.join(words)}, standard output {way}: status {status}, wanted 1")
    if (LOST in told) != (way != "unread"):
        raise Differs(f"$ {' '.join(words)}, standard output {way}: told {told!r}")
    seen[way] += 1


def each_job(room: Room) -> Iterator[str | None]:
    """Each job in each way."""
    put_files(room)
    for words, given in JOBS:
        for way in WAYS:
            status, told = lost(room, way, words, given)
            is_right = status == 1 and (LOST in told) == (way != "unread")
            yield None if is_right else f"$ {' '.join(words)}, standard output {way}: status {status}, told {told!r}"


main(__doc__, check, RUNS, WAYS, [each_job])
