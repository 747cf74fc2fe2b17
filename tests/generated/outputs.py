#!/usr/bin/env python3
"""The file OUT of `asm` and `policy`: it is whole, or as it was before, in folders of each kind. docs/COMMANDS.md, *OUT*, says what is due."""
from __future__ import annotations

import os
import resource
import signal
import stat
import subprocess
import sys
import threading
from collections import Counter
from collections.abc import Iterator
from pathlib import Path
from random import Random

sys.dont_write_bytecode = True
sys.path.insert(0, str(Path(__file__).resolve().parent.parent))
from generator import main
from rmapctl import Differs, Room

RUNS = 40
OLD = b"what was there before, and is longer than an image of two slots would be"
TEXT = ".budget 2\nmov r0, 0\nexit\n"
TABLE = "any * * FF 00000000 FFFFFFFF - 0\n"
NOBODY = 65534


def job(room: Room, *words: str, most: int | None = None, user: int | None = None) -> tuple[int, str]:
    """The status and what is printed of a job, whose files have at most so many bytes, done by that user."""
    def begin() -> None:
        os.umask(0o022)
        if most is not None:
            # A write past the limit is then refused, as by a disk that is full, and no signal ends the program.
            signal.signal(signal.SIGXFSZ, signal.SIG_IGN)
            resource.setrlimit(resource.RLIMIT_FSIZE, (most, most))
        if user is not None:
            os.setgroups([])
            os.setgid(user)
            os.setuid(user)
    done = subprocess.run([room.program, *words], cwd=room.folder, capture_output=True, text=True, preexec_fn=begin, restore_signals=False,
                          check=False, timeout=60)
    return done.returncode, done.stdout


def names(room: Room) -> set[str]:
    return set(os.listdir(room.folder))


def image(room: Room) -> bytes:
    """The image that the text makes."""
    room.put("text", TEXT)
    job(room, "asm", "text", "image")
    made = room.content("image")
    assert made is not None
    return made


def same(what: str, came: object, wanted: object) -> str | None:
    return None if came == wanted else f"{what}: {came!r}, wanted {wanted!r}"


def links(room: Room) -> Iterator[str | None]:
    """A link stays, and what it leads to is exchanged; both names of a file have the new content."""
    made = image(room)
    room.put("old", OLD)
    os.symlink("old", room.folder / "link")
    yield same("by a link", job(room, "asm", "text", "link")[0], 0)
    yield same("the link", os.readlink(room.folder / "link"), "old")
    yield same("what it leads to", room.content("old"), made)
    room.put("old", OLD)
    os.link(room.folder / "old", room.folder / "other")
    yield same("of two names", job(room, "asm", "text", "old")[0], 0)
    yield same("its other name", room.content("other"), made)
    os.symlink("nowhere", room.folder / "dangling")
    yield same("a link that leads nowhere", job(room, "asm", "text", "dangling")[0], 0)
    yield same("where it led", (room.content("nowhere"), os.readlink(room.folder / "dangling")), (made, "nowhere"))


def modes(room: Room) -> Iterator[str | None]:
    """The mode of the old file is that of the new one, and a new file has that of any."""
    for mode in (0o600, 0o640, 0o664, 0o755):
        room.put("out", OLD)
        (room.folder / "out").chmod(mode)
        image(room)
        yield same("status", job(room, "asm", "text", "out")[0], 0)
        yield same("mode", stat.S_IMODE((room.folder / "out").stat().st_mode), mode)
    (room.folder / "out").unlink()
    job(room, "asm", "text", "out")
    yield same("mode of a new one", stat.S_IMODE((room.folder / "out").stat().st_mode), 0o644)


def refusals(room: Room) -> Iterator[str | None]:
    """Where the system refuses to write, what was there is there, and nothing else is."""
    image(room)
    room.put("table", TABLE)
    room.put("out", OLD)
    before = names(room)
    for words in (("asm", "text", "out"), ("policy", "table", "out")):
        yield same(f"{words[0]} on a full disk", job(room, *words, most=20), (1, "cannot write out\n"))
        yield same("the old file", room.content("out"), OLD)
        yield same("files", names(room), before)
    yield same("a new file on a full disk", job(room, "asm", "text", "new", most=20), (1, "cannot write new\n"))
    yield same("files", names(room), before)
    yield same("in no folder", job(room, "asm", "text", "none/out"), (1, "cannot write none/out\n"))
    yield same("a folder", job(room, "asm", "text", "locked"), (1, "cannot write locked\n"))
    yield same("a full device", job(room, "asm", "text", "/dev/full"), (1, "cannot write /dev/full\n"))
    yield same("files", names(room), before)


def folders(room: Room) -> Iterator[str | None]:
    """In a folder that may not be written a file is written in place; a file that may not be written is refused."""
    made = image(room)
    room.put("out", OLD)
    user = NOBODY if os.getuid() == 0 else None
    room.folder.chmod(0o755 if user else 0o555)
    (room.folder / "out").chmod(0o666)
    if user:
        os.chown(room.folder / "out", user, user)
    try:
        yield same("in a folder that may not be written", job(room, "asm", "text", "out", user=user)[0], 0)
        yield same("the file", room.content("out"), made)
        room.folder.chmod(0o777)
        room.put("out", OLD)
        (room.folder / "out").chmod(0o444)
        yield same("a file that may not be written", job(room, "asm", "text", "out", user=user), (1, "cannot write out\n"))
        yield same("the file", room.content("out"), OLD)
    finally:
        room.folder.chmod(0o755)


def pipes(room: Room) -> Iterator[str | None]:
    """A pipe is written in place."""
    made = image(room)
    os.mkfifo(room.folder / "pipe")
    came: list[bytes] = []
    reader = threading.Thread(target=lambda: came.append((room.folder / "pipe").read_bytes()))
    reader.start()
    yield same("a pipe", job(room, "asm", "text", "pipe")[0], 0)
    reader.join(30)
    yield same("what came of it", came, [made])


def contents(room: Room) -> Iterator[str | None]:
    """What a bank of the node's file begins with is not written over, by no name; and an image that the file names is."""
    room.put("table", TABLE)
    (room.folder / "flight").mkdir()
    for name, node in (("science.bin", "node.toml"), ("flight/science.bin", "flight/node.toml"), (str(room.folder / "far.bin"), "far.toml")):
        room.put(node, f'program = "table.img"\n[[bank]]\nbase = 0\nsize = 99\njournal = 1\n[[bank]]\nbase = 0\nsize = 99\njournal = 1\n'
                       f'contents = "{name.removeprefix("flight/")}"\n')
        room.put(name, OLD)
        os.symlink(room.folder / name, room.folder / "link")
        os.link(room.folder / name, room.folder / "hard")
        for other in (name, f"./{name}", str(room.folder / name), "link", "hard", f"flight/../{name}"):
            other = name if other.startswith(".//") or "//" in other else other
            yield same(f"{node}: {other}", job(room, "policy", "table", other, "--node", node), (1, f"cannot write {other}\n"))
        yield same("the bytes of the bank", room.content(name), OLD)
        os.unlink(room.folder / "link")
        os.unlink(room.folder / "hard")
        for _ in range(2):
            yield same("an image that it names", job(room, "policy", "table", "table.img", "--node", node), (0, "slots 24\n"))
    room.put("science.bin", OLD)
    yield same("from standard input", job(room, "policy", "table", "science.bin", "--maps", "1"), (0, "slots 24\n"))


def check(random: Random, room: Room, seen: Counter[str]) -> None:
    """Texts and places at random, with a limit of bytes: the image whole, or what was there."""
    room.put("text", f".budget 9\nmov r0, {random.choice([0, 3, 10])}\n" + "mov r1, 1\n" * random.randrange(4) + "exit\n")
    job(room, "asm", "text", "wanted")
    wanted = room.content("wanted")
    old = random.choice([None, b"", OLD])
    if old is not None:
        room.put("out", old)
    before = names(room)
    most = random.randrange(80)
    status, _ = job(room, "asm", "text", "out", most=most)
    if room.content("out") != (wanted if status == 0 else old):
        raise Differs(f"status {status} with {most} bytes: OUT has {room.content('out')!r}")
    if names(room) - {"out"} != before - {"out"}:
        raise Differs(f"files {sorted(names(room))}, before {sorted(before)}")
    seen["whole" if status == 0 else "as before"] += 1


main(__doc__, check, RUNS, {"whole": 5, "as before": 5}, [links, modes, refusals, folders, pipes, contents])
