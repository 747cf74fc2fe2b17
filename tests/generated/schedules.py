#!/usr/bin/env python3
"""Schedules of `sim`: every short one of two ports comes to what a function finds that looks back on what happened, and random ones, with
loads and packets of any kind, to what a node does that was written from docs/PROTOCOL.md alone."""
from __future__ import annotations

import sys
from collections import Counter
from collections.abc import Iterator
from itertools import product
from pathlib import Path
from random import Random
from typing import NamedTuple

sys.dont_write_bytecode = True
sys.path.insert(0, str(Path(__file__).resolve().parent.parent))
from generator import main, same_lines
from models.images import BadImage, Image, assembled, form_fault, parsed
from models.machine import Map
from models.runs import PLAIN_READ, read_of, words_of
from models.schedules import done, ended, events
from models.world import Packet, World
from packets import crc, header
from rmapctl import Differs, Room

# How many random schedules the gate makes, and how many events each has.
SCHEDULES, EVENTS = 150, 120

# What the runs have to come to, and how often.
KINDS = {"refused": 1000, "discard": 50, "answered": 200, "taken": 1000, "told": 300, "done": 1000, "loads": 40, "refused loads": 40}

PLAIN_WRITE = Packet(bytes.fromhex("FE016C0067000000A00000000000109F0123456789ABCDEF101112131415161756"))


class Program(NamedTuple):
    """A program of two ports: its text, its maps, what it asks in turn, and its verdict by its port and what it was told first."""
    text: str
    maps: list[Map]
    asks: list[str]
    verdict: str


# Draws a ticket, and says yes to the first alone; asks how many tickets were drawn, draws one, and says yes where there was none;
# shows the number of its port and one more to the cell, and says yes where no greater was shown.
PROGRAMS = [
    Program("ldmap r1, 0; mov r2, 0; call 2; jlt r0, 1, +2; mov r0, 10; exit; mov r0, 0; exit", [(1, False)], ["ticket"], "first"),
    Program("ldmap r1, 0; mov r2, 0; call 1; mov r6, r0; ldmap r1, 0; mov r2, 0; call 2; mov r0, r6; exit", [(1, False)],
            ["count", "ticket"], "first"),
    Program(".version 2; add r3, 1; mov r6, r3; ldmap r1, 0; mov r2, 0; call 3; jeq r0, r6, +2; mov r0, 10; exit; mov r0, 0; exit",
            [(1, True)], ["peak"], "own"),
]

# What happens at one of two ports.
KINDS_OF_EVENTS = ["take", "count", "ticket", "peak", "effect"]
HAPPENINGS = [(kind, port) for kind in KINDS_OF_EVENTS for port in (0, 1)]

# An event of a list, and what it came to.
History = list[tuple[str, int, str]]


def answers(history: History, port: int) -> list[int] | None:
    """What the open command of a port was told so far; None where none is open."""
    told: list[int] | None = None
    for _, at, came in history:
        word, *rest = came.split()
        if at == port and word == "taken":
            told = []
        elif at == port and word == "told":
            told = [*(told or []), int(rest[0])]
        elif at == port and word == "done":
            told = None
    return told


def word(history: History) -> int:
    """What the cell holds: how many tickets were told, or the greatest number that was shown."""
    tickets = sum(kind == "ticket" and came.startswith("told") for kind, _, came in history)
    shown = [port + 1 for kind, port, came in history if kind == "peak" and came.startswith("told")]
    return max([tickets, *shown])


def looked_back(program: Program, history: History, kind: str, port: int) -> str:
    """What an event comes to behind a history."""
    told = answers(history, port)
    if told is None:
        return "taken 0" if kind == "take" else "refused"
    if len(told) < len(program.asks):
        if kind != program.asks[len(told)]:
            return "refused"
        return f"told {max(word(history), port + 1) if kind == 'peak' else word(history)}"
    is_yes = told[0] == (port + 1 if program.verdict == "own" else 0)
    if kind != "effect":
        return "refused"
    return "done 0 67012C00FE0000ED" if is_yes else "done 10 67012C0AFE0000D2"


def list_of(room: Room, program: Program, image: Image, happenings: list[tuple[str, int]]) -> str | None:
    """What differs in a list of events, or None. Behind it what is open ends and memory is read."""
    history: History = []
    for kind, port in happenings:
        history.append((kind, port, looked_back(program, history, kind, port)))
    world = World(image, program.maps, 2)
    found = [done(world, kind, port, PLAIN_WRITE) for kind, port in happenings]
    try:
        same_lines("the node here", [came for _, came in found], [came for _, _, came in history])
        found += ended(world, (0, 1), PLAIN_READ)
        given = "".join(f"{line}\n" for line, _ in found)
        same_lines(given, room.printed("sim", "-", *words_of(program.maps, 2), given=given), [came for _, came in found])
    except Differs as error:
        return str(error)
    return None


def every_short_list(room: Room) -> Iterator[str | None]:
    """Every list of four events that begins with a take, and every list of two behind all those that are refused at first."""
    for program in PROGRAMS:
        image = assembled([".budget 16", *program.text.split(";")])
        room.put("image", image.spelled())
        for port, *rest in product((0, 1), *[HAPPENINGS] * 3):
            yield list_of(room, program, image, [("take", port), *rest])
        for rest in product(HAPPENINGS, repeat=2):
            yield list_of(room, program, image, [it for it in HAPPENINGS if it[0] != "take"] + list(rest))


def command(instruction: int, address: int, data: bytes, length: int | None = None, extended: int = 0xFF) -> Packet:
    """A command, for the boot window where nothing else is said."""
    head = header(instruction, address, len(data) if length is None else length, extended=extended)
    return Packet(head + bytes([crc(head)]) + (data + bytes([crc(data)]) if length is None else b""))


def image_bytes(text: str, budget: int, version: int = 1) -> bytes:
    return assembled([f".budget {budget}", f".version {version}", *text.split(";")]).spelled()


# Images that are loaded: yes, no, and one that asks; then some that are refused, or that are none.
YES, NO = image_bytes("mov r0, 0; exit", 2), image_bytes("mov r0, 10; exit", 2)
ASKS = image_bytes("ldmap r1, 0; mov r2, 0; call 2; mov r0, 0; exit", 6)
UNSET = image_bytes("jeq r3, 0, +1; mov r0, 0; exit", 3)
LITTLE = image_bytes("mov r0, 0; exit", 1)
PEAK = image_bytes("ldmap r1, 0; mov r2, 0; call 3; mov r0, 0; exit", 5, 2)
NO_MAP = image_bytes("ldmap r1, 7; mov r0, 0; exit", 5)
OTHERS = [YES[:-9] + b"\xFF" + YES[-8:], b"BPFB" + YES[4:], YES[:4] + b"\3" + YES[5:], YES[:6] + bytes(2) + YES[8:], YES[:8] + bytes(4) + YES[12:]]
IMAGES = [YES, YES, NO, ASKS, UNSET, LITTLE, PEAK, NO_MAP, *OTHERS]

# What the verifier refuses of these for what values may do, by the kind of the node's first map.
OF_VALUES = {UNSET: (5, 2), NO_MAP: (12, 0)}


def loaded(data: bytes, is_peak: bool) -> Image | tuple[int, int]:
    """The code and the place of a refused load, or the image."""
    try:
        image = parsed(data)
    except BadImage as fault:
        return 32 + fault.code, fault.slot
    if fault := form_fault(image):
        return fault
    if data in OF_VALUES:
        return OF_VALUES[data]
    if data in (PEAK, ASKS) and is_peak != (data == PEAK):
        return 18, 3
    return image


def packet_of(random: Random) -> Packet:
    """A packet: of a bank, of the boot window, or of any bytes."""
    kind = random.randrange(12)
    if kind < 3:
        return command(0x6C, 0, random.choice(IMAGES))
    if kind < 6:
        slot, length = random.choice([0, 1, 2, 3, 1, 4]), random.choice([len(YES)] * 3 + [len(ASKS), len(PEAK), 0, 31, 0x4001])
        return command(0x6C, 0x10000, bytes([slot, random.randrange(9) == 0]) + length.to_bytes(2, "big"))
    if kind == 6:
        return command(0x4C, 0x10000, b"", 8)
    if kind == 7:
        return command(0x4C, random.randrange(32), b"", 8)
    if kind == 8:
        return Packet(random.randbytes(random.randrange(24)))
    if kind == 9:
        return command(0x4C, 0xA0010000, b"", 8, 0)
    packet = read_of(random)
    return Packet(packet.data, random.randrange(8) != 0)


def compare(room: Room, world: World, found: list[tuple[str, str]]) -> None:
    given = "".join(f"{line}\n" for line, _ in found)
    same_lines("sim", room.printed("sim", "-", *words_of(world.maps, len(world.ports)), given=given), [came for _, came in found])


def check(random: Random, room: Room, seen: Counter[str]) -> None:
    program = random.choice(PROGRAMS)
    text = random.choice([program.text, "mov r0, 0; exit"])
    image = assembled([".budget 16", *text.split(";")])
    is_peak = program.maps[0][1]
    room.put("image", image.spelled())
    world = World(image, program.maps, 1 + random.randrange(4), lambda data: loaded(data, is_peak))
    found = list(events(random, world, EVENTS, packet_of, seen))
    seen["loads"] += world.published
    seen["refused loads"] += sum(came.startswith("done 1 ") and line.startswith("publish") for line, came in found)
    compare(room, world, found)


# Behind these events, at so many ports, a node has: the first bytes of its bank, how many entries, the word of its first cell, the
# generation of each slot, and of its last port the first staged bytes and the load result. By hand from docs/PROTOCOL.md.
QUOTA = PROGRAMS[0].text
COUNTS = PROGRAMS[1].text
ALL_YES = "mov r0, 0; exit"
WORLDS = f"""\
2 1|2|{ALL_YES}||00000000 0 0 0,0,0,0 00000000 0000000000000000
|1|{ALL_YES}|take 0 write/effect 0|01234567 1 - 0,0,0,0 00000000 0000000000000000
|1|{ALL_YES}|take 0 write|00000000 0 - 0,0,0,0 00000000 0000000000000000
|1|mov r0, 10; exit|take 0 write/effect 0|00000000 1 - 0,0,0,0 00000000 0000000000000000
1|2|{QUOTA}|take 0 write/take 1 write/ticket 1/ticket 0|00000000 0 2 0,0,0,0 00000000 0000000000000000
1|2|{COUNTS}|take 0 write/take 1 write/count 0/count 1/ticket 1|00000000 0 1 0,0,0,0 00000000 0000000000000000
|2|{ALL_YES}|take 1 stage-some/effect 1|00000000 0 - 0,0,0,0 01020304 0000000000000000
|2|{ALL_YES}|take 0 stage-some/effect 0|00000000 0 - 0,0,0,0 00000000 0000000000000000
|2|{ALL_YES}|take 1 stage-no/effect 1/take 1 load-1/publish 1|00000000 0 - 0,1,0,0 42504641 0000000000000001
|2|{ALL_YES}|take 0 stage-no/effect 0/take 0 load-3/publish 0|00000000 0 - 0,0,0,1 00000000 0000000000000000
|2|{ALL_YES}|take 1 stage-unset/effect 1/take 1 load-40/publish 1|00000000 0 - 0,0,0,0 42504641 0500000200000000
1|2|{QUOTA}|effect 0/take 0 write/take 0 read/count 0/effect 0/publish 0/ticket 1|00000000 0 0 0,0,0,0 00000000 0000000000000000
"""

NAMED = {
    "write": PLAIN_WRITE, "read": PLAIN_READ, "stage-some": command(0x6C, 0, b"\1\2\3\4"), "stage-no": command(0x6C, 0, NO),
    "stage-unset": command(0x6C, 0, UNSET), "load-1": command(0x6C, 0x10000, bytes([1, 0, 0, 32])),
    "load-3": command(0x6C, 0x10000, bytes([3, 0, 0, 32])), "load-40": command(0x6C, 0x10000, bytes([1, 0, 0, 40])),
}


def state_of(world: World) -> str:
    """What a row says of a node."""
    cell = world.cells[0][0] if world.cells else "-"
    last = world.ports[-1]
    generations = ",".join(str(generation) for _, generation in world.slots)
    return " ".join([world.memory[:4].hex().upper(), str(len(world.entries)), str(cell), generations, last.staging[:4].hex().upper(),
                     last.result.hex().upper()])


def nodes_behind_events(room: Room) -> Iterator[str | None]:
    """The node here is as the rows say; what is open then ends, and each byte of staging, the load result and memory are read."""
    for row in WORLDS.splitlines():
        maps, ports, text, happenings, wanted = row.split("|")
        image = assembled([".budget 16", *text.split(";")])
        room.put("image", image.spelled())
        world = World(image, [(int(size), False) for size in maps.split()], int(ports), lambda data: loaded(data, False))
        words = [it.split(" ") for it in happenings.split("/") if it]
        found = [done(world, kind, int(port), NAMED[name[0]] if name else PLAIN_READ) for kind, port, *name in words]
        state = state_of(world)
        yield None if state == wanted else f"{row}\nthe node here: {state}"
        last = int(ports) - 1
        for packet in [command(0x4C, 0x10000, b"", 8), command(0x4C, 0, b"", 64), PLAIN_WRITE, PLAIN_READ]:
            found += ended(world, (last, *range(last)), packet)
        try:
            compare(room, world, found)
        except Differs as error:
            yield f"{row}\n{error}"


def full_journal(room: Room) -> Iterator[str | None]:
    """Behind 1,024 reads a write finds no room and leaves memory; a status of its verdict or of its body stands."""
    image = assembled([".budget 2", "ldxb r0, [r1+3]", "exit"])
    room.put("image", image.spelled())
    world = World(image, [], 2)
    head = PLAIN_WRITE.data[:3] + b"\3" + PLAIN_WRITE.data[4:15]
    denied = Packet(head + bytes([crc(head)]) + PLAIN_WRITE.data[16:])
    early = Packet(PLAIN_WRITE.data[:20])
    sent = [(0, PLAIN_READ)] * 1023 + [(1, it) for it in (PLAIN_WRITE, PLAIN_WRITE, denied, early, PLAIN_READ)]
    found = [event for port, packet in sent for event in ended(world, (port,), packet)]
    statuses = [came.split()[1] for line, came in found[-10:] if line.startswith("effect")]
    yield None if statuses == ["0", "1", "3", "5", "1"] else f"statuses of the node here: {statuses}"
    try:
        compare(room, world, found)
        yield None
    except Differs as error:
        yield str(error)


main(__doc__, check, SCHEDULES, KINDS, [every_short_list, nodes_behind_events, full_journal])
