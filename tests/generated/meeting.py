#!/usr/bin/env python3
"""Jobs `serve` whose two ports meet: the order in which they meet is free, so what comes is each of the answers that are right."""
import sys
from collections import Counter
from pathlib import Path
from random import Random

sys.dont_write_bytecode = True
sys.path.insert(0, str(Path(__file__).resolve().parent.parent))
from generator import main
from rmapctl import Differs, Room

# How often the gate lets them meet.
MEETINGS = 100

# A write and a read of sixteen bytes, and the replies where they are done, denied, or find no room in the journal.
WRITE = "FE016C0067000000A00000000000109F0123456789ABCDEF101112131415161756 EOP"
READ = "FE014C0067000100A0000000000010C9 EOP"
DONE = "67012C00FE0000ED EOP"
DENIED = "67012C0AFE0000D2 EOP"
ZEROS = "67010C00FE0001000000106D0000000000000000000000000000000000 EOP"
WRITTEN = "67010C00FE0001000000106D0123456789ABCDEF101112131415161756 EOP"
GENERAL = "67010C01FE0001000000008C00 EOP"

# Stages `mov r0, 10; exit`, and loads it for writes; and the replies.
LOAD = ["FE016C00670010FF00000000000020B642504641010002000200000000000000B70000000A000000950000000000000056 EOP",
        "FE016C00670011FF000100000000049201000020B4 EOP"]
LOADED = ["67012C00FE0010F1 EOP", "67012C00FE001160 EOP"]

# A program that says yes to the first five commands, whatever their port.
QUOTA = ".budget 8\nldmap r1, 0\nmov r2, 0\ncall 2\njlt r0, 5, +2\nmov r0, 10\nexit\nmov r0, 0\nexit\n"

# How many commands a journal takes.
JOURNAL = 1024


def served(room: Room, first: list[str], second: list[str], *options: str) -> tuple[list[str], list[str]]:
    """The replies of each port where it is given these packets; none is lost or discarded."""
    lines = [f"{port} {packet}\n" for port, packets in enumerate((first, second)) for packet in packets]
    room.put("lines", "".join(lines))
    *replies, last = room.printed("serve", "lines", "--ports", "2", *options).splitlines()
    if last != "discarded 0 lost 0":
        raise Differs(f"the last line is {last}")
    ports = [[line[2:] for line in replies if line.startswith(f"{port} ")] for port in range(2)]
    if replies != [f"{port} {reply}" for port in range(2) for reply in ports[port]]:
        raise Differs("the replies are not in the order of the ports:\n" + "\n".join(replies))
    return ports[0], ports[1]


def same(what: str, came: object, wanted: object) -> None:
    if came != wanted:
        raise Differs(f"{what}\nwanted: {wanted}\ncame: {came}")


def one_of(seen: Counter[str], what: str, came: list[str], names: dict[str, str]) -> None:
    """That the one reply is one of these; counts which."""
    if len(came) != 1 or came[0] not in names:
        raise Differs(f"{what}: {came}")
    seen[f"{what}: {names[came[0]]}"] += 1


def quota(room: Room, _: Counter[str]) -> None:
    """Ten writes at each port under a quota of five: how the five fall on the ports is free."""
    room.put("text", QUOTA)
    room.printed("asm", "text", "image")
    ports = served(room, [WRITE] * 10, [WRITE] * 10, "--image", "image", "--maps", "1")
    same("replies of each port", [len(replies) for replies in ports], [10, 10])
    replies = ports[0] + ports[1]
    same("done and denied", (replies.count(DONE), replies.count(DENIED)), (5, 15))


def load(room: Room, seen: Counter[str]) -> None:
    """The port that loads is judged by its program; the other port by that one or the one before."""
    own, other = served(room, [*LOAD, WRITE], [WRITE])
    same("the port that loads", own, [*LOADED, DENIED])
    one_of(seen, "a write beside a load", other, {DONE: "done", DENIED: "denied"})


def read_beside_write(room: Room, seen: Counter[str]) -> None:
    """A read beside a write shows all of it or nothing."""
    own, other = served(room, [WRITE], [READ])
    same("the port that writes", own, [DONE])
    one_of(seen, "a read beside a write", other, {ZEROS: "nothing", WRITTEN: "all of it"})


def full_journal(room: Room, _: Counter[str]) -> None:
    """Of 1,023 reads at each port all behind the first 1,024 are general errors, whichever they are."""
    ports = served(room, [READ] * (JOURNAL - 1), [READ] * (JOURNAL - 1))
    replies = ports[0] + ports[1]
    same("done and general errors", (replies.count(ZEROS), replies.count(GENERAL)), (JOURNAL, JOURNAL - 2))


def check(_: Random, room: Room, seen: Counter[str]) -> None:
    for meeting in (quota, load, read_beside_write, full_journal):
        meeting(room, seen)


main(__doc__, check, MEETINGS)
