#!/usr/bin/env python3
"""Talks: what is due for a line of `live` leaves before the next line comes, and frames are answered however their bytes are cut,
and whatever becomes of standard error; and what is told at a terminal."""
import os
import select
import subprocess
import sys
from collections import Counter
from collections.abc import Iterator
from pathlib import Path
from random import Random

sys.dont_write_bytecode = True
sys.path.insert(0, str(Path(__file__).resolve().parent.parent))
from generator import main
from rmapctl import SECONDS, Differs, Done, Room
from sessions import frames_as_lines

# How many talks of each kind the gate holds, and how many lines or frames each has.
TALKS, MOST = 25, 12

WORDS = ["live", "--maps", "2"]

# A write, a read, a read in two pieces, bad lines, a set of memory that there is not, and what a talk is asked for.
LINES = [
    "0 FE016C0067000100A0000010000002411122A3 EOP\n",
    "0 FE014C0067000200A00000100000024F EOP\n",
    "0 FE014C0067000200A0 PART\n",
    "0 0000100000024F EOP\n",
    "0 FE01 eop\n",
    "set 00 A0010000 01\n",
    "cells\n",
    "journal\n",
]

# A write, a time code, a piece of a read behind a path, with a reserved byte that is not 0, a frame for a bridge, the rest of the
# read, and two bytes that are no packet.
FRAMES = [bytes.fromhex(digits) for digits in (
    "000000000000000000000013FE016C0067000100A0000010000002411122A3",
    "3000000000000000000000020500",
    "02AA0000000000000000000B0102FE014C0067000200A0",
    "3800000000000000000000020100",
    "0000000000000000000000070000100000024F",
    "000000000000000000000002FE01",
)]

# What becomes of standard error.
WAYS = ["closed", "full", "unread"]

# Words, and what is told first where standard input is a terminal.
TERMINAL = [
    ([], "judge -: reads packet lines; rmapctl --help has the words\n"),
    (["judge", "-"], ""),
    (["live"], "live: reads packet lines, journal, cells and set 00 ADDRESS HEX; rmapctl help live has more\n"),
    (["live", "--frames"], "journal 0 entries\n"),
]

# How many bytes come at a time: beside those that are drawn, one by one, and the length of a frame's head with its neighbours.
PIECES = [1, 2, 11, 12, 13, 50]


def read_for(talk: subprocess.Popen[bytes], length: int) -> bytes:
    """So many bytes of a talk, as they come."""
    came = b""
    while len(came) < length:
        if not select.select([talk.stdout], [], [], SECONDS)[0]:
            raise Differs(f"after {came!r} nothing came for {SECONDS} seconds")
        more = os.read(talk.stdout.fileno(), length - len(came))
        if not more:
            raise Differs(f"after {came!r} the talk ended")
        came += more
    return came


def start(room: Room, *words: str, given: int = subprocess.PIPE, told: int | None = None) -> subprocess.Popen[bytes]:
    return subprocess.Popen([room.program, *words], cwd=room.folder, stdin=given, stdout=subprocess.PIPE, stderr=told)


def parted(told: bytes) -> tuple[bytes, bytes]:
    """What a talk printed for its lines, and the journal that it handed out at its end."""
    lines = told.splitlines(keepends=True)
    place = len(lines) - 1 - int(lines[-1].split()[1])
    return b"".join(lines[:place]), b"".join(lines[place:])


def talk_in_lines(random: Random, room: Room, seen: Counter[str]) -> None:
    """Gives each line when what is due for the one before it came; what is due is what a talk of the lines so far says more."""
    lines = random.choices(LINES, k=random.randrange(1, MOST))
    told, ends = zip(*(parted(room.job(*WORDS, given="".join(lines[:count])).out) for count in range(len(lines) + 1)))
    with start(room, *WORDS) as talk:
        for place, line in enumerate(lines):
            due = told[place + 1].removeprefix(told[place])
            os.write(talk.stdin.fileno(), line.encode())
            came = read_for(talk, len(due))
            if came != due:
                raise Differs(f"{line}wanted: {due!r}\ncame: {came!r}")
            seen[line] += 1
        more = talk.communicate()[0]
    if more != ends[-1]:
        raise Differs(f"after the last line\nwanted: {ends[-1]!r}\ncame: {more!r}")


def pieces_of(random: Random, sent: bytes) -> list[bytes]:
    """The bytes, cut: all pieces as long, or each as it is drawn."""
    most = random.choice([*PIECES, 0])
    pieces = []
    while sent:
        length = most or random.randrange(1, 60)
        pieces.append(sent[:length])
        sent = sent[length:]
    return pieces


def talk_in_frames(random: Random, room: Room, seen: Counter[str]) -> None:
    """Gives the bytes of frames in pieces, each of which a read takes alone, since the pipe keeps them apart."""
    frames = FRAMES if random.randrange(2) else random.choices(FRAMES, k=random.randrange(1, MOST))
    wanted = room.job("live", "--frames", given=b"".join(frames), joined=True).out
    ours, theirs = os.pipe2(os.O_DIRECT | os.O_CLOEXEC)
    with start(room, "live", "--frames", given=ours, told=subprocess.STDOUT) as talk:
        os.close(ours)
        for piece in pieces_of(random, b"".join(frames)):
            os.write(theirs, piece)
        os.close(theirs)
        came = talk.communicate()[0]
    if came != wanted:
        raise Differs(f"wanted:\n{frames_as_lines(wanted).decode()}came:\n{frames_as_lines(came).decode()}")
    seen["all frames"] += frames is FRAMES


def without_errors(room: Room, way: str, given: bytes) -> Done:
    """What comes of frames where standard error is closed, full, or a pipe that nobody reads any more."""
    words = [room.program, "live", "--frames"]
    if way == "closed":
        words = ["sh", "-c", 'exec "$0" "$@" 2>&-', *words]
    if way == "unread":
        theirs, told = os.pipe()
        os.close(theirs)
    else:
        told = os.open("/dev/full", os.O_WRONLY)
    try:
        done = subprocess.run(words, cwd=room.folder, input=given, stdout=subprocess.PIPE, stderr=told, timeout=SECONDS)
    finally:
        os.close(told)
    return Done(done.stdout, b"", done.returncode)


def talk_unheard(random: Random, room: Room, seen: Counter[str]) -> None:
    """What cannot be told holds no reply back: replies are those of a standard error that takes all. But the journal of the end is
    lost, and so the status is 1."""
    given = b"".join(random.choices(FRAMES, k=random.randrange(1, MOST)))[:random.choice([-1, None])]
    way = random.choice(WAYS)
    wanted, came = room.job("live", "--frames", given=given), without_errors(room, way, given)
    if (came.out, came.status) != (wanted.out, 1):
        raise Differs(f"standard error {way}\nwanted: {wanted}\ncame: {came}")
    seen[way] += 1


def at_a_terminal(room: Room) -> Iterator[str | None]:
    """What is told before standard input is waited for, where that is a terminal; it ends at once."""
    for words, wanted in TERMINAL:
        ours, theirs = os.openpty()
        os.write(ours, b"\x04")
        done = subprocess.run([room.program, *words], cwd=room.folder, stdin=theirs, capture_output=True, timeout=SECONDS)
        os.close(theirs)
        os.close(ours)
        came = done.stderr.decode()
        yield None if came == wanted else f"{words}\nwanted: {wanted}\ncame: {came}"


def check(random: Random, room: Room, seen: Counter[str]) -> None:
    talk_in_lines(random, room, seen)
    talk_in_frames(random, room, seen)
    talk_unheard(random, room, seen)


main(__doc__, check, TALKS, [*LINES, "all frames", *WAYS], [at_a_terminal])
