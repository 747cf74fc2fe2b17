#!/usr/bin/env python3
"""Random programs that ask cells: under `live`, `sim` and `trace` the cells are asked and answered, and come to the verdicts, as by a
machine and a node that were written from docs/BPF.md and docs/PROTOCOL.md."""
from __future__ import annotations

import sys
from collections import Counter
from collections.abc import Iterator
from pathlib import Path
from random import Random

sys.dont_write_bytecode = True
sys.path.insert(0, str(Path(__file__).resolve().parent.parent))
from generator import main, same_lines
from models.images import Image, assembled
from models.insns import Insn, Reg, alu, call, load_map, negate, wide
from models.machine import Map
from models.programs import (WIDTHS, any_load, any_number, any_store, arithmetic, end, extension, immediate, leap, number, operand,
                             order, registers_set, stack_set)
from models.runs import PLAIN_READ, compare_runs, compare_steps, read_of, safely, words_of
from models.schedules import events
from models.world import World
from rmapctl import Differs, Room

# How many programs the gate makes, and how many questions each has at most.
PROGRAMS, QUESTIONS = 200, 12

# The maps, and the number of a slot to leap over a question.
MAPS: list[Map] = [(1, False), (4, True), (32, False), (128, True)]
OVER = 10

# What the runs have to come to, and how often.
KINDS = {"runs": 1000, "steps": 5_000, "count": 400, "ticket": 200, "peak": 200, "taken": 300, "refused": 300, "open at the end": 20}

# Draws a ticket in its port's cell of two, and asks for the other's cell until that is past its own, at most 4,096 times. At another
# port it says no at once.
TWO_PORTS_MEET = (".loop 10, 16, 4096, r9; mov r6, r3; jgt r6, 1, +15; ldmap r1, 0; mov r2, r6; call 2; mov r7, r0; mov r8, 1; "
                  "sub r8, r6; mov r9, 4096; ldmap r1, 0; mov r2, r8; call 1; jgt r0, r7, +4; add r9, -1; jne r9, 0, -7; mov r0, 10; "
                  "exit; mov r0, 0; exit")


def lasting(random: Random) -> Insn:
    """An instruction on what outlives a question: numbers, the tail by r8, and the stack by r9 and r10."""
    dst, high, kind = number(random), random.randrange(57) - 64, random.randrange(8)
    if kind == 0:
        return negate(dst, random.choice(WIDTHS))
    if kind == 1:
        return extension(random, dst, number(random))
    if kind == 2:
        return order(random, dst)
    if kind == 3:
        return any_load(random, 8, 0)
    if kind == 4:
        return any_load(random, 9, high + 64)
    return any_store(random, 10, high) if kind == 5 else arithmetic(random, dst, operand(random))


def question(random: Random) -> list[Insn]:
    """A question of ten slots: of the key so many low bits are left that it is inside; r4 and r5 get other numbers behind it."""
    index = random.randrange(len(MAPS))
    cells, is_peak = MAPS[index]
    helper = random.choice([1, 3 if is_peak else 2])
    return [load_map(1, index), alu("mov", 2, Reg(number(random))), alu("and", 2, cells - 1), alu("mov", 3, Reg(number(random))),
            call(helper), wide(4, any_number(random)), wide(5, any_number(random))]


def made(random: Random) -> Image:
    """A random program with questions, of which runs may pass some by."""
    insns = [*registers_set(random), *stack_set(random)]
    for _ in range(QUESTIONS):
        insns += [lasting(random) for _ in range(4)]
        if random.randrange(3) == 0:
            over = leap(random, number(random), immediate(random))
            insns.append(Insn(over.opcode, over.dst, over.src, OVER, over.imm))
        insns += question(random)
    return Image(2, 65_536, [*insns, *end(random)])


def compare_events(random: Random, room: Room, image: Image, seen: Counter[str]) -> None:
    """Steps of three ports, of which some commands stay open."""
    world = World(image, MAPS, 3)
    with safely(image):
        found = list(events(random, world, 60, read_of, seen))
    seen["open at the end"] += any(port.open for port in world.ports)
    given = "".join(f"{event}\n" for event, _ in found)
    same_lines("sim", room.printed("sim", "-", *words_of(MAPS, 3), given=given), [came for _, came in found])


def check(random: Random, room: Room, seen: Counter[str]) -> None:
    image = made(random)
    sent = [(random.randrange(32), read_of(random)) for _ in range(6)]
    if not compare_runs(room, image, MAPS, sent):
        raise Differs("refused, and no instruction of the program is one that may go wrong")
    seen["runs"] += len(sent)
    compare_events(random, room, image, seen)
    if random.randrange(4) == 0:
        seen["steps"] += compare_steps(room, image, MAPS, sent[:1])


def one_port_waits_in_vain(room: Room) -> Iterator[str | None]:
    """The weight is 24,589; where no one else draws, the run asks as often as it may."""
    for budget, wanted in [(24_588, "refused V15 slot 0\n"), (24_589, "accepted weight 24589 budget 24589\n")]:
        image = assembled([f".budget {budget}", *TWO_PORTS_MEET.split(";")])
        room.put("image", image.spelled())
        printed = room.job("verify", "image", "--maps", "2").out.decode()
        yield None if printed == wanted else f"verify: {printed}wanted: {wanted}"
    try:
        yield None if compare_runs(room, image, [(2, False)], [(0, PLAIN_READ)]) else "refused"
        steps = compare_steps(room, image, [(2, False)], [(0, PLAIN_READ)])
        yield None if steps == 24_587 else f"{steps} steps, wanted 24587"
    except Differs as error:
        yield str(error)


main(__doc__, check, PROGRAMS, KINDS, [one_port_waits_in_vain])
