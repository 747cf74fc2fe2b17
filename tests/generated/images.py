#!/usr/bin/env python3
"""Images that are cut off, and images of which some bytes are others: `verify` tells the fault of each, or of its program's form, as
docs/BPF.md says, and what is accepted comes to the verdict of a machine that was written from there."""
from __future__ import annotations

import re
import sys
from collections import Counter
from collections.abc import Iterator
from pathlib import Path
from random import Random

sys.dont_write_bytecode = True
sys.path.insert(0, str(Path(__file__).resolve().parent.parent))
from generator import main
from models.images import BadImage, Image, form_fault, parsed
from models.insns import Insn, alu, text
from models.programs import looped, straight
from models.runs import PLAIN_READ, compare_runs, read_of
from rmapctl import Differs, Room

# How many images the gate makes.
IMAGES = 700

# What the runs have to come to, and how often: each fault of an image, each fault of a form, and others.
KINDS = {f"F{code}": 3 for code in range(1, 8)} | {f"V{code}": 2 for code in (1, 2, 3, 10, 14, 15, 16)} | {"ok": 60, "of values": 30}

# `mov r0, 0; mov r6, 4; add r0, 1; add r6, -1; jne r6, 0, -3; exit`, loop (2, 4, 4, r6), budget 15.
COUNTDOWN = bytes.fromhex("42504641010106000f000000000000000200040004000600b700000000000000b706000004000000070000000100000007060000ffffffff"
                          "5506fdff000000009500000000000000")

# What each of its bytes is replaced by, and what then comes: how many are accepted, and how many have each fault of an image (F) and
# each refusal (V). The same of its beginnings.
REPLACEMENTS = [0x00, 0x01, 0x7F, 0x80, 0xFF]
REPLACED = "ok 91, F1 20, F2 4, F3 6, F4 23, F5 9, F6 27, F7 103, V1 8, V2 3, V3 38, V4 19, V5 3, V14 1, V15 5"
CUT_OFF = "F1 4, F2 1, F3 67"

# Fields of an image, as their place and size, and numbers at their limits: loops, slots, budget, and the head and bound of a loop.
LIMITS = [(5, 1, [8, 9]), (6, 2, [0, 512, 513]), (8, 4, [0, 1, 65_536, 65_537]), (16, 2, [0, 3]), (20, 2, [0, 1, 4_096, 4_097])]

# The codes of refusals for what values may do.
OF_VALUES = [4, 5, 6, 7, 8, 9, 11, 12, 18]


def answer(room: Room, data: bytes) -> str:
    """What `verify` answers to bytes: `ok`, or the code of the fault or of the refusal. What can be told of it is compared first."""
    room.put("image", data)
    printed = room.job("verify", "image").out.decode().strip()
    try:
        image = parsed(data)
    except BadImage as fault:
        return expected(printed, f"image fault {fault.code} slot {fault.slot}", f"F{fault.code}")
    if refused := form_fault(image):
        return expected(printed, f"refused V{refused[0]} slot {refused[1]}", f"V{refused[0]}")
    if printed == f"accepted weight {image.weight} budget {image.budget}":
        return "ok"
    told = re.fullmatch(r"refused V(\d+) slot (\d+)", printed)
    if told is None or int(told[1]) not in OF_VALUES or int(told[2]) not in image.at:
        raise Differs(f"{data.hex()}\nverify: {printed}")
    return f"V{told[1]}"


def expected(printed: str, wanted: str, code: str) -> str:
    if printed != wanted:
        raise Differs(f"verify: {printed}\nwanted: {wanted}")
    return code


def ran(room: Room, data: bytes) -> None:
    """Compares what accepted bytes come to, and the text that they are printed as."""
    image = parsed(data)
    sent = [(0, PLAIN_READ), *[(port, read_of(Random(port))) for port in (1, 31)]]
    if not compare_runs(room, image, [], sent):
        raise Differs(f"{data.hex()}: verify accepts what a node refuses")
    printed = room.printed("dis", "image").splitlines()
    lines = [text(insn) for insn in image.insns]
    if printed[-len(lines):] != lines:
        raise Differs(f"{data.hex()}\ndis: {printed}\nwanted: {lines}")


def counts_at_limits(room: Room) -> Iterator[str | None]:
    """Eight loops and 512 slots are as many as there may be."""
    for place, size, numbers in LIMITS:
        for number in numbers:
            data = bytearray(COUNTDOWN)
            data[place:place + size] = number.to_bytes(size, "little")
            yield told(room, bytes(data))


def told(room: Room, data: bytes) -> str | None:
    try:
        if answer(room, data) == "ok":
            ran(room, data)
    except Differs as error:
        return f"{data.hex()}\n{error}"
    return None


def told_counts(room: Room, images: list[bytes], wanted: str) -> Iterator[str | None]:
    """What differs in each of some images, and in how many have which answer."""
    counts: Counter[str] = Counter()
    for data in images:
        try:
            code = answer(room, data)
            counts[code] += 1
            if code == "ok":
                ran(room, data)
            yield None
        except Differs as error:
            yield f"{data.hex()}\n{error}"
    order = ["ok", *[f"{kind}{code}" for kind in "FV" for code in range(1, 19)]]
    found = ", ".join(f"{code} {counts[code]}" for code in order if counts[code])
    yield None if found == wanted else f"{found}\nwanted: {wanted}"


def one_byte_replaced(room: Room) -> Iterator[str | None]:
    images = [COUNTDOWN[:place] + bytes([value]) + COUNTDOWN[place + 1:] for place in range(len(COUNTDOWN)) for value in REPLACEMENTS]
    yield from told_counts(room, images, REPLACED)


def cut_off(room: Room) -> Iterator[str | None]:
    yield from told_counts(room, [COUNTDOWN[:size] for size in range(len(COUNTDOWN))], CUT_OFF)


def too_many_slots(room: Room) -> Iterator[str | None]:
    """The number of slots alone is the fault, whatever follows it."""
    for size in (0, 513, 65_535):
        data = COUNTDOWN[:6] + size.to_bytes(2, "little") + COUNTDOWN[8:]
        yield from told_counts(room, [data, data[:16]], "F4 2")


# Instructions that a program may not have: a jump outside, calls that are none, a constant that is not supported, a write of r10.
WRONG = [Insn(0x05, offset=300), Insn(0x85, src=1), Insn(0x85, imm=9), Insn(0x18, 1, 3, 0, 7), alu("mov", 10, 0)]


def program(random: Random) -> Image:
    """A random program; now and then an instruction is wrong, the last is missing, or the budget is too small."""
    insns, loops = looped(random, 60) if random.randrange(2) else (straight(random, 9, 20), [])
    kind, budget = random.randrange(8), 65_536
    if kind == 0:
        place = random.randrange(len(insns))
        insns[place] = random.choice([it for it in WRONG if it.slots == insns[place].slots])
    elif kind == 1:
        insns.pop()
    elif kind == 2:
        budget = Image(1, 1, insns, loops).weight - 1
    return Image(random.choice([1, 2]), budget, insns, loops)


def at_a_limit(random: Random, data: bytearray) -> None:
    """Puts a number at a limit into a field."""
    place, size, numbers = random.choice(LIMITS)
    data[place:place + size] = random.choice(numbers).to_bytes(size, "little")


def made(random: Random) -> bytes:
    """An image of which some bytes are others, or some are missing or too many."""
    data = bytearray(program(random).spelled())
    if random.randrange(4) == 0:
        at_a_limit(random, data)
    for _ in range(random.choice([0, 1, 1, 2])):
        place = random.choice([random.randrange(min(len(data), 40)), random.randrange(len(data))])
        kind = random.randrange(6)
        if kind == 0:
            data[place] ^= 1 << random.randrange(8)
        elif kind < 5:
            data[place] = random.choice([0, 1, 2, 10, 255, random.randrange(256), data[random.randrange(len(data))]])
        elif random.randrange(2):
            del data[max(place, 1):place + random.choice([1, 8, len(data)])]
        else:
            data += bytes(8)
    return bytes(data)


def check(random: Random, room: Room, seen: Counter[str]) -> None:
    data = made(random)
    code = answer(room, data)
    seen[code] += 1
    seen["of values"] += code[0] == "V" and int(code[1:]) in OF_VALUES
    if code == "ok":
        ran(room, data)


main(__doc__, check, IMAGES, KINDS, [one_byte_replaced, cut_off, too_many_slots, counts_at_limits])
