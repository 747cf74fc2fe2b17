#!/usr/bin/env python3
"""OUT of `asm` and `policy` that is the file that is read, by another name: a path, a link, or standard input. Each is refused before
anything is read, and the source stays whole; a name of another file is written, and so is what has no content of its own."""
from __future__ import annotations

import os
import subprocess
import sys
from collections import Counter
from collections.abc import Iterator
from pathlib import Path
from random import Random

sys.dont_write_bytecode = True
sys.path.insert(0, str(Path(__file__).resolve().parent.parent))
from generator import main
from rmapctl import SECONDS, Differs, Done, Room

# The sources of the two words that write, and what is printed of each.
SOURCES = {
    "asm": ("mov r0, 0\nexit\n.budget 2\n", "slots 2 loops 0 budget 2\n"),
    "policy": ("any * * * 00000000 FFFFFFFF - 0\n", "slots 22\n"),
}

# The names of the source, and of links to it.
SOURCE, HARD, SYMBOLIC, FOLDER = "source", "hard", "symbolic", "folder"

# What is told on standard error of an OUT that is the source.
TOLD = "    this is the file that is read\n"

# Pairs of names of the source: what is read, and OUT. `-` is standard input, which is the source then.
SAME = [(SOURCE, SOURCE), (SOURCE, f"./{SOURCE}"), (f"{FOLDER}/../{SOURCE}", SOURCE), (SOURCE, HARD), (HARD, SOURCE), (SOURCE, SYMBOLIC),
        (SYMBOLIC, SOURCE), (SYMBOLIC, HARD), (f"{FOLDER}/{SOURCE}", SOURCE), ("-", SOURCE), ("-", HARD), ("-", SYMBOLIC),
        ("-", "/dev/stdin"), ("/dev/stdin", SOURCE), (SOURCE, "/dev/stdin"), ("/dev/fd/0", SOURCE), ("/proc/self/fd/0", "/dev/stdin")]

# Pairs of which OUT is another file, or none that has content.
OTHER = [(SOURCE, "out"), ("-", "out"), (SOURCE, "/dev/null"), (SYMBOLIC, f"{FOLDER}/out")]


def set_up(room: Room, text: str) -> None:
    """Puts the source there, with its links."""
    room.put(SOURCE, text)
    folder = room.folder
    for name in (HARD, SYMBOLIC, FOLDER):
        if (folder / name).is_symlink() or (folder / name).is_file():
            (folder / name).unlink()
    (folder / FOLDER).mkdir(exist_ok=True)
    os.link(folder / SOURCE, folder / HARD)
    (folder / SYMBOLIC).symlink_to(SOURCE)
    inner = folder / FOLDER / SOURCE
    inner.unlink(missing_ok=True)
    inner.symlink_to(folder / HARD)


def done_over(room: Room, *words: str) -> Done:
    """What comes of a job of which standard input is the source."""
    with open(room.folder / SOURCE, "rb") as given:
        done = subprocess.run([room.program, *words], cwd=room.folder, stdin=given, capture_output=True, timeout=SECONDS, check=False)
    return Done(done.stdout, done.stderr, done.returncode)


def refused(room: Room, word: str, read: str, out: str) -> None:
    """Raises Differs if the source of a word is written over, or is not refused so."""
    text, _ = SOURCES[word]
    set_up(room, text)
    done = done_over(room, word, read, out)
    wanted = (f"cannot write {out}\n", TOLD, 1)
    if (done.out.decode(), done.err.decode(), done.status) != wanted:
        raise Differs(f"{word} {read} {out}: {done}")
    if room.content(SOURCE) != text.encode():
        raise Differs(f"{word} {read} {out}: the source is another")


def written(room: Room, word: str, read: str, out: str) -> None:
    """Raises Differs if the image is not made."""
    text, printed = SOURCES[word]
    set_up(room, text)
    done = done_over(room, word, read, out)
    if (done.out.decode(), done.err.decode(), done.status) != (printed, "", 0) or room.content(SOURCE) != text.encode():
        raise Differs(f"{word} {read} {out}: {done}")


def tried(check: object, *words: object) -> str | None:
    try:
        check(*words)
    except Differs as error:
        return str(error)
    return None


def sources(room: Room) -> Iterator[str | None]:
    """Each pair of names, by each word that writes."""
    for word in SOURCES:
        for read, out in SAME:
            yield tried(refused, room, word, read, out)
        for read, out in OTHER:
            yield tried(written, room, word, read, out)


def chained(random: Random, room: Room, seen: Counter[str]) -> None:
    """A chain of links of either kind, of which two names are given."""
    word = random.choice(list(SOURCES))
    text, _ = SOURCES[word]
    set_up(room, text)
    names = [SOURCE]
    for number in range(1 + random.randrange(4)):
        name = f"link{number}"
        if random.randrange(2):
            (room.folder / name).symlink_to(random.choice(names))
            seen["symbolic"] += 1
        else:
            os.link(room.folder / random.choice(names), room.folder / name)
            seen["hard"] += 1
        names.append(name)
    read, out = random.choice(names), random.choice(names)
    done = done_over(room, word, read, out)
    if done.status != 1 or done.err.decode() != TOLD or room.content(SOURCE) != text.encode():
        raise Differs(f"{word} {read} {out}: {done}")


if __name__ == "__main__":
    main(__doc__, chained, 10, ["symbolic", "hard"], [sources])
