#!/usr/bin/env python3
"""Instructions that the interpreter may do at once, and others like them, at each place of a program and with jumps into the middle of
each: replies, verdicts and cells are those of a machine that does one instruction after the other."""
from __future__ import annotations

import sys
from collections import Counter
from collections.abc import Iterator
from pathlib import Path
from random import Random
from typing import NamedTuple

sys.dont_write_bytecode = True
sys.path.insert(0, str(Path(__file__).resolve().parent.parent))
from generator import main
from models.images import Image, assembled
from models.machine import Map
from models.runs import PLAIN_READ, compare_runs, compare_steps, read_of
from models.world import Packet
from rmapctl import Differs, Room

# How many random programs the gate makes, and how many sequences each has at most.
PROGRAMS, SEQUENCES = 150, 5

# The maps: two counter maps, and between them a peak map.
MAPS: list[Map] = [(2, False), (4, True), (2, False)]

# What the runs have to come to, and how often.
KINDS = {"accepted": 80, "steps": 500}

# A write whose header differs from that of the plain read in each byte that may differ.
OTHER = Packet(bytes.fromhex("FE0168FF4210FE00A0000A010000010E099F"))

# Which registers are A, B, C, F and T: each of the first three is r0 once; and the same where a call may stand before a load.
A_IS_VERDICT, B_IS_VERDICT, C_IS_VERDICT = "r0 r6 r7 r1 r2".split(), "r6 r0 r7 r1 r2".split(), "r6 r7 r0 r1 r2".split()
KEPT = "r6 r7 r0 r8 r9".split()

# Sets the registers: A, B and C have the numbers 7, 3 and 0x8000000100000005, F and T point to the front and the tail of a header.
BEGIN = "mov r0, 2; lddw A, 7; lddw B, 3; lddw C, 0x8000000100000005; mov F, r1; mov T, r2; "

# Mixes the numbers into r0. A jump over one instruction passes by the first.
MIX = "xor B, 64; mul r0, 31; add r0, A; mul r0, 31; add r0, B; mul r0, 31; add r0, C; "

# What stands before a sequence and behind it, and the registers. The jump leads to `middle`, which is in the sequence: behind some
# instructions, before an exit, in a loop of which the second round jumps, and over the head of a loop, where it is the jump back.
FRAMES = [
    *[(f"{BEGIN}SETUP; jeq r3, 0, middle; {before}", f"{MIX}exit", registers) for before, registers in [
        ("", A_IS_VERDICT), ("mov r5, r3; ", B_IS_VERDICT), ("ldmap r5, 0; ", C_IS_VERDICT), ("add r3, r3; ", A_IS_VERDICT)]],
    *[(f"{BEGIN}SETUP; jeq r3, 0, middle; ", f"exit; {MIX}exit", registers) for registers in [
        A_IS_VERDICT, B_IS_VERDICT, C_IS_VERDICT]],
    (f".loop head, back, 3, r9; {BEGIN}mov r9, 3; head: ; SETUP; jeq r9, 2, middle; ",
     f"{MIX}add r9, -1; back: ; jne r9, 0, head; exit", B_IS_VERDICT),
    (f".loop middle, back, 3, r9; {BEGIN}SETUP; mov r9, 3; ", f"{MIX}add r9, -1; back: ; jne r9, 0, middle; exit", C_IS_VERDICT),
]

# The sequences that a code fits which does all of it, or the end of it, at once: of each such code one, at least. Before the bar
# stands what comes before a jump into the middle.
FUSED = """\
|ldxb A, [F+2]; jeq A, 76, +1
|ldxb A, [F+2]; jne A, 76, +1
|ldxb A, [T+0]; jeq A, 103, +1
|ldxb A, [T+0]; jne A, 103, +1
|ldxb A, [F+2]; and A, 12; jeq A, 12, +1
|ldxb A, [F+2]; and A, 12; jne A, 12, +1
|ldxb A, [T+0]; and A, 7; jeq A, 7, +1
|ldxb A, [T+0]; and A, 7; jne A, 7, +1
|add A, -1; jne A, 6, +1
|add A, -1; jne A, 7, +1
|mov32 A, 2; jlt B, A, +1
|mov32 A, 9; jlt B, A, +1
|mov32 A, -1; jlt C, A, +1
|mov32 A, 0; jgt B, A, +1
|mov32 A, 9; jgt B, A, +1
|mov32 A, -1; jgt C, A, +1
|mov r0, 9; exit
|mov A, B; mov C, B
|mov A, B; mov A, C
|mov A, B; mov B, C
|mov A, A; mov B, C
mov r4, F; mov r5, T; add r4, 1; add r5, 1|mov r4, F; mov r5, T; ldxb A, [r4+2]; ldxb B, [r5+4]
|ldxw A, [T+4]; be32 A
|ldxw A, [T+0]; be32 A
|ldxw A, [T+4]; be32 A; jgt32 A, 0x9fffffff, +1
|ldxw A, [T+4]; be32 A; jgt32 A, 0xa0000000, +1
|ldxw A, [T+0]; be32 A; jgt32 A, 0x10067, +1
|ldxw A, [T+4]; be32 A; jlt32 A, 0xa0000001, +1
|ldxw A, [T+4]; be32 A; jlt32 A, 0xa0000000, +1
|ldxw A, [T+0]; be32 A; jlt32 A, 0x10068, +1
|rsh A, 2; jeq A, 1, +1
|rsh C, 63; jeq C, 1, +1
|rsh C, 65; jeq C, 0, +1
|rsh A, 3; jeq A, 7, +1
|and A, 6; jeq A, 6, +1
|and A, 6; jeq A, 7, +1
|and A, 6; jne A, 6, +1
|and A, 6; jne A, 7, +1
|and C, -256; jeq C, 0, +1
|and C, -256; jne C, 0, +1
|and C, 5; jeq C, 5, +1
|add A, B; sub A, 1
|add A, C; sub A, -1
|add A, A; sub A, 5
mov C, 5; mov r4, T; add r4, 2|mov C, 7; mov r4, T; add r4, C; sub r4, 1; ldxb B, [r4+0]
|ldmap r1, 1; mov A, 9
|ldmap r4, 2; mov B, -1
ldmap r1, 2; mov r2, 0|ldmap r1, 2; mov r2, 1; call 1
ldmap r1, 1; mov r2, 0|ldmap r1, 1; mov r2, 3; call 1
ldmap r1, 2; mov r2, 0|ldmap r1, 2; mov r2, 1; call 2
ldmap r1, 1; mov r2, 0; mov r3, 2|mov r3, B; ldmap r1, 1; mov r2, 3; call 3
ldmap r1, 1; mov r2, 0; mov r3, 2|mov r3, C; ldmap r1, 1; mov r2, 2; call 3; ldmap r1, 1; mov r2, 2; call 1
ldmap r1, 2; mov r2, 0|ldmap r1, 2; mov r2, 1; call 2; ldmap r1, 2; mov r2, 0; call 2; ldmap r1, 2; mov r2, 1; call 1"""

# Sequences that look like those, and differ from what each such code does in something: another register, width, region, order of
# bytes or condition, a register in place of a number, a move of what was moved, or a call behind other moves.
NEAR = """\
|ldxb A, [F+2]; jne B, 76, +1
|ldxb A, [F+2]; jeq32 A, 76, +1
|ldxb A, [T+0]; jgt A, 102, +1
|ldxb A, [T+0]; jeq A, B, +1
|ldxh A, [F+2]; jeq A, 76, +1
|ldxsb A, [T+11]; jeq A, 201, +1
stb [r10-1], 9|stb [r10-1], 76; ldxb A, [r10-1]; jeq A, 76, +1
|ldxb A, [F+2]; and B, 12; jne A, 76, +1
|ldxb A, [F+2]; and A, 12; jeq B, 3, +1
|ldxb A, [F+2]; and A, B; jeq A, 0, +1
|ldxb A, [T+0]; and32 A, 7; jeq A, 7, +1
|ldxb A, [T+0]; and A, 7; jeq32 A, 7, +1
|ldxb A, [T+0]; and A, 7; jeq A, B, +1
|ldxb A, [F+2]; or A, 3; jeq A, 79, +1
|add A, -1; jeq A, 6, +1
|add C, -1; jne32 C, 4, +1
|add A, -1; jne B, 3, +1
|add A, -4; jne A, B, +1
|add32 C, -1; jne C, 4, +1
|sub A, 1; jne A, 6, +1
|mov32 A, 9; jlt A, A, +1
|mov32 A, 2; jlt B, C, +1
|mov32 A, 2; jgt B, C, +1
|mov32 A, 2; jgt A, B, +1
|mov A, -1; jlt C, A, +1
|mov32 A, -1; jlt32 C, A, +1
|mov32 A, C; jgt B, A, +1
|mov32 A, 2; jgt B, 2, +1
|mov A, 9; exit
|mov32 r0, -1; exit
|mov r0, C; exit
|mov A, B; mov B, A
|mov A, B; mov C, A
|mov A, C; mov A, A
|mov A, B; mov32 B, C
|mov32 A, C; mov B, C
|mov A, B; mov B, 9
|mov A, C; movsx32 B, C
|mov A, B; mov C, B; mov B, C
|ldxw A, [T+0]; be32 B
|ldxw A, [T+0]; be16 A
|ldxw A, [T+0]; be64 A
|ldxw A, [T+0]; le32 A
|ldxw A, [T+0]; swap32 A
|ldxh A, [T+0]; be32 A
|ldxsw A, [T+8]; be32 A
|ldxdw A, [T+0]; be32 A
|ldxw A, [F+0]; be32 A
stw [r10-4], 9|stw [r10-4], 0x12345678; ldxw A, [r10-4]; be32 A
|ldxw A, [T+4]; be32 A; jgt A, 0x9fffffff, +1
|ldxw A, [T+4]; be32 A; jlt A, 0xa0000001, +1
|ldxw A, [T+4]; be32 A; jgt32 B, 2, +1
|ldxw A, [T+4]; be32 A; jge32 A, 0xa0000000, +1
|ldxw A, [T+4]; be32 A; jsgt32 A, -1, +1
|ldxw A, [T+4]; be32 A; jgt32 A, B, +1
|ldxw A, [T+4]; be32 A; jlt32 B, A, +1
|ldxw A, [T+4]; be32 B; jgt32 A, 159, +1
|ldxw A, [T+4]; le32 A; jlt32 A, 161, +1
|ldxw A, [F+0]; be32 A; jgt32 A, 0xfe000000, +1
|rsh A, 2; jeq B, 3, +1
|rsh32 C, 2; jeq C, 1, +1
|rsh A, B; jeq A, 0, +1
|rsh C, 31; jeq32 C, 2, +1
|rsh A, 2; jne A, 1, +1
|arsh C, 63; jeq C, -1, +1
|rsh A, 1; jeq A, B, +1
|lsh A, 2; jeq A, 28, +1
|and A, 6; jeq B, 3, +1
|and A, 6; jne B, 3, +1
|and32 C, -256; jeq C, 0, +1
|and A, B; jeq A, 3, +1
|and C, -256; jeq32 C, 0, +1
|and C, -256; jne32 C, 0, +1
|and A, 3; jeq A, B, +1
|and A, 3; jne A, B, +1
|and A, 6; jset A, 2, +1
|xor A, 5; jeq A, 2, +1
|add A, B; sub B, 1
|add32 A, C; sub A, 1
|add C, C; sub32 C, 1
|add A, B; sub A, C
|add A, 4; sub A, 1
|add A, B; add A, 1
|sub A, B; sub A, 1
|add A, B; sub A, 1; jne A, 9, +1
mov r1, 0|ldmap r1, 1; mov r1, 9; mov A, r1
|ldmap r1, 1; mov32 A, -1
|ldmap r1, 1; mov A, B
|lddw A, 0x900000001; mov B, 9
ldmap r1, 2; mov r2, 0|ldmap r4, 0; mov r2, 1; call 1
ldmap r1, 2; mov r2, 0|ldmap r4, 0; mov r2, 1; call 2
ldmap r1, 1; mov r2, 0; mov r3, 2|mov r3, A; ldmap r4, 0; mov r2, 3; call 3
ldmap r1, 2; mov r2, 0|ldmap r1, 2; mov A, 1; call 1
ldmap r1, 2; mov r2, 0|ldmap r1, 2; mov r4, 1; call 2
ldmap r1, 1; mov r2, 0; mov r3, 2|ldmap r1, 1; mov r3, 5; call 3
ldmap r1, 2; mov r2, 0|ldmap r1, 2; mov32 r2, 1; call 2
ldmap r1, 2; mov r2, 0; mov r5, 1|ldmap r1, 2; mov r5, 1; mov r2, r5; call 2
ldmap r1, 2; mov r2, 0|ldmap r1, 2; lddw r2, 1; call 2
ldmap r1, 2; mov r2, 0|mov r2, 1; ldmap r1, 2; call 2
ldmap r1, 2; mov r2, 0|ldmap r1, 2; mov r2, 0; mov r2, 1; call 2
ldmap r1, 2; mov r2, 0|ldmap r2, 1; mov r2, 1; call 2"""

# The programs of which a sequence stands first, with others beside it.
FIRST = """\
ldxb r0, [r1+2]; jeq r0, 76, +1; add r0, 5; exit
ldxb r0, [r1+2]; jne r0, 76, +1; add r0, 5; exit
ldxb r0, [r2+0]; jeq r0, 103, +1; add r0, 5; exit
ldxb r0, [r2+0]; jne r0, 103, +1; add r0, 5; exit
ldxb r0, [r1+2]; and r0, 12; jeq r0, 12, +1; add r0, 5; exit
ldxb r0, [r1+2]; and r0, 12; jne r0, 12, +1; add r0, 5; exit
ldxb r0, [r2+0]; and r0, 7; jeq r0, 7, +1; add r0, 5; exit
ldxb r0, [r2+0]; and r0, 7; jne r0, 7, +1; add r0, 5; exit
add r3, -1; jne r3, 0, +1; add r3, 5; mov r0, r3; exit
mov32 r0, 1; jlt r3, r0, +1; add r0, 5; exit
mov32 r0, 1; jgt r3, r0, +1; add r0, 5; exit
mov r0, 3; exit
mov r6, r1; mov r7, r2; ldxb r0, [r7+0]; ldxb r6, [r6+2]; mul r0, 256; add r0, r6; exit
mov r0, r3; mov r6, r3; add r6, 5; add r0, r6; exit
mov r0, r3; mov r3, r0; add r3, 5; add r0, r3; exit
ldxw r0, [r2+4]; be32 r0; exit
ldxw r0, [r2+0]; be32 r0; jgt32 r0, 0x10067, +1; add r0, 5; exit
ldxw r0, [r2+0]; be32 r0; jlt32 r0, 0x10068, +1; add r0, 5; exit
rsh r3, 1; jeq r3, 0, +1; add r3, 5; mov r0, r3; exit
and r3, 1; jeq r3, 1, +1; add r3, 5; mov r0, r3; exit
and r3, 1; jne r3, 1, +1; add r3, 5; mov r0, r3; exit
add r3, r3; sub r3, 1; mov r0, r3; exit
ldmap r1, 1; mov r0, 7; exit
ldmap r1, 2; mov r2, 1; call 1; exit
ldmap r1, 1; mov r2, 3; call 1; exit
ldmap r1, 2; mov r2, 1; call 2; exit
ldmap r1, 1; mov r2, 3; call 3; exit
.loop 1, 5, 32, r3; add r3, 1; jne r3, 2, +1; mov r6, 4; mov r0, r3; add r3, -1; jne r3, 0, -5; exit
.loop 1, 5, 9, r4; mov32 r4, 9; jlt r3, r4, +1; mov r3, r4; mov r0, r3; add r4, -1; jne r4, 0, -5; exit
.loop 1, 5, 9, r4; mov32 r4, 9; jgt r3, r4, +1; add r3, 1; mov r0, r3; add r4, -1; jne r4, 0, -5; exit"""


class Sequence(NamedTuple):
    """Instructions that stand behind each other, and what comes before a jump into the middle of them."""
    setup: str
    parts: list[str]

    def text(self, place: int | None = None) -> str:
        """The instructions, with the label `middle` before the one of this place."""
        return "".join(("middle: ; " if index == place else "") + part + "; " for index, part in enumerate(self.parts))


def sequences(text: str) -> list[Sequence]:
    found = [line.split("|") for line in text.splitlines()]
    return [Sequence(setup, [part.strip() for part in parts.split(";")]) for setup, parts in found]


def image_of(text: str, registers: list[str]) -> Image:
    """The image of a program with registers for A, B, C, F and T."""
    for letter, register in zip("ABCFT", registers):
        text = text.replace(letter, register)
    return assembled([".version 2", ".budget 1000", *text.split(";")])


def told(room: Room, text: str, image: Image, counts: Counter[str], ports: int = 2) -> str | None:
    """What differs in a program, or None; counts it, and whether it is accepted."""
    sent = [*[(port, PLAIN_READ) for port in range(ports)], (1, OTHER), (0, OTHER)]
    counts["programs"] += 1
    try:
        counts["accepted"] += compare_runs(room, image, MAPS, sent, 4)
    except Differs as error:
        return f"{text}\n{error}"
    return None


def counted(counts: Counter[str], programs: int, accepted: int) -> str | None:
    found = counts["programs"], counts["accepted"]
    return None if found == (programs, accepted) else f"{found} programs and accepted ones, wanted {(programs, accepted)}"


def stand_first(room: Room) -> Iterator[str | None]:
    """All are accepted."""
    counts: Counter[str] = Counter()
    for line in FIRST.splitlines():
        yield told(room, line, image_of(line, KEPT), counts, 4)
    yield counted(counts, 30, 30)


def at_each_place(room: Room) -> Iterator[str | None]:
    """All are accepted but those that come back into the middle of what needs a map or a pointer that the loop itself makes."""
    counts: Counter[str] = Counter()
    for before, behind, registers in FRAMES:
        for it in sequences(FUSED + "\n" + NEAR):
            for place in range(len(it.parts)):
                text = (before + it.text(place) + behind).replace("SETUP", it.setup)
                yield told(room, text, image_of(text, registers), counts)
    yield counted(counts, 3393, 3336)


def behind_each_other(room: Room) -> Iterator[str | None]:
    """All are accepted but those that jump into the second slot of an instruction, and one whose pointer may leave the header."""
    counts: Counter[str] = Counter()
    for first in sequences(FUSED):
        for second in sequences(FUSED):
            text = f"{BEGIN}{second.setup}; jeq r3, 0, middle; {first.text()}{second.text(1)}{MIX}exit"
            yield told(room, text, image_of(text, KEPT), counts)
    yield counted(counts, 2809, 2610)


def check(random: Random, room: Room, seen: Counter[str]) -> None:
    """Some sequences behind each other, with a jump into one of them."""
    chosen = random.choices(sequences(FUSED) + sequences(NEAR), k=2 + random.randrange(SEQUENCES - 1))
    last = len(chosen) - 1
    parts = [it.text(random.randrange(len(it.parts)) if index == last else None) for index, it in enumerate(chosen)]
    text = f"{BEGIN}{chosen[last].setup}; jeq r3, 0, middle; {''.join(parts)}{MIX}exit"
    image = image_of(text, random.choice([KEPT, [*random.sample(["r0", "r6", "r7"], 3), "r8", "r9"]]))
    sent = [(random.randrange(4), read_of(random)) for _ in range(4)]
    if compare_runs(room, image, MAPS, sent, 4):
        seen["accepted"] += 1
        seen["steps"] += compare_steps(room, image, MAPS, sent[:2], 4)


main(__doc__, check, PROGRAMS, KINDS, [stand_first, at_each_place, behind_each_other])
