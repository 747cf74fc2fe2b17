#!/usr/bin/env python3
"""Random programs of version 2 without jumps that put numbers on the stack and load them again: after each instruction what a machine
holds that was written from docs/BPF.md is as the verifier knows it, which `why` prints of a store that it refuses."""
from __future__ import annotations

import re
import sys
from collections import Counter
from pathlib import Path
from random import Random

sys.dont_write_bytecode = True
sys.path.insert(0, str(Path(__file__).resolve().parent.parent))
from generator import main
from models.images import Image
from models.insns import Insn, Reg, alu, leave, load, store
from models.machine import Machine, MapIndex, Pointer, Trap, Value
from models.programs import any_load, any_store, arithmetic, immediate, number, operand
from models.runs import read_of
from rmapctl import Differs, Room

# How many programs the gate makes, how many random instructions each has, and how many places of the stack are used.
PROGRAMS, LENGTH, PLACES = 100, 24, 5

# On how many headers and ports the machine does each.
HEADERS = 6

# What the runs have to come to, and how often.
KINDS = {"states": 2_000, "numbers of which more is known than their size": 100}

# The verifier refuses this for what it writes, where nothing else is wrong, and `why` prints what it knew there.
TOLD_BY = store("dw", 1, 0, 0)

# A number of 64 bits of which nothing is known.
ANY = (0, 2**64 - 1)


def place(random: Random) -> int:
    """Where a place begins, counted from the end of the stack."""
    return -8 - 8 * random.randrange(PLACES)


def base_and_offset(random: Random) -> tuple[int, int]:
    """Where an access of any size is inside, also from the pointer below the end; which may point to several bytes."""
    return (9 if random.randrange(6) == 0 else 10), -8 - random.randrange(33)


def any_insn(random: Random) -> Insn:
    """A store or a load of any size, or arithmetic."""
    kind = random.randrange(8)
    if kind < 2:
        return store("dw", 10, place(random), operand(random))
    if kind < 4:
        return load("dw", number(random), 10, place(random))
    if kind == 4:
        return any_store(random, *base_and_offset(random))
    if kind == 5:
        return any_load(random, *base_and_offset(random))
    if kind == 6:
        return alu("mov", number(random), immediate(random))
    return arithmetic(random, number(random), operand(random))


def made(random: Random) -> list[Insn]:
    """A program: numbers in registers, a pointer below the end of the stack by so many bytes as the port has of some bits, and numbers
    in the places but, now and then, one."""
    insns = [alu("mov", register, immediate(random)) for register in (0, 4, 5, 6)]
    insns += [alu("and", 3, random.randrange(16)), alu("mov", 9, Reg(10)), alu("sub", 9, Reg(3))]
    for index in range(PLACES):
        if random.randrange(16):
            insns.append(store("dw", 10, -8 - 8 * index, operand(random)))
    return insns + [any_insn(random) for _ in range(LENGTH)]


def known(line: str) -> dict[int, str]:
    """What is known of each register, as `why` prints it."""
    return {int(number): what for number, what in re.findall(r"r(\d+) ([^,]+)", line)}


def whole_number(word: str) -> int:
    return int(word, 16) if word.startswith("0x") else int(word)


def ends(what: str) -> tuple[int, int]:
    """The ends of a range of numbers."""
    if what.startswith("any number"):
        return ANY
    low, _, high = what.partition(" to ")
    return whole_number(low), whole_number(high or low)


def fits(value: Value, what: str) -> bool:
    """Whether a value is of the kind that is known."""
    if isinstance(value, MapIndex):
        return what == f"map {value.index}"
    if isinstance(value, Pointer):
        low, _, high = what.partition(" to ")
        offsets = [int(end.removeprefix(value.region)) for end in (low, high or low)]
        return offsets[0] <= value.offset <= offsets[1]
    return isinstance(value, int) and ends(what)[0] <= value <= ends(what)[1]


def told(room: Room, insns: list[Insn]) -> dict[int, str] | None:
    """What the verifier knows behind some instructions; None where it refuses one of them."""
    image = Image(2, 65_536, [*insns, TOLD_BY, leave()])
    room.put("image", image.spelled())
    lines = room.job("why", "image").out.decode().splitlines()
    slot = sum(insn.slots for insn in insns)
    if lines[0] != f"refused V9 slot {slot}":
        if not lines[0].startswith("refused V") or int(lines[0].split()[-1]) >= slot:
            raise Differs(f"why: {lines[0]}")
        return None
    return known(next(line for line in lines if re.match(r"    r\d", line)))


def follow(machines: list[Machine], insn: Insn, kinds: dict[int, str]) -> None:
    """Does an instruction, and compares what each machine holds with what is known."""
    for machine in machines:
        try:
            machine.step(insn)
        except Trap as trap:
            raise Differs(f"the verifier goes on, and the machine traps at slot {machine.slot}: {trap}") from None
        for register, what in kinds.items():
            if not fits(machine.registers[register], what):
                raise Differs(f"behind slot {machine.slot - 1} r{register} is {machine.registers[register]}, and known is {what}")


def is_kept(insn: Insn, kinds: dict[int, str]) -> bool:
    """Whether a number was loaded of which more is known than its size."""
    return insn.opcode == 0x79 and insn.dst in kinds and ends(kinds[insn.dst]) != ANY


def check(random: Random, room: Room, seen: Counter[str]) -> None:
    insns, image = made(random), Image(2, 1, [leave()])
    sent = [(read_of(random), random.randrange(32)) for _ in range(HEADERS)]
    machines = [Machine(image, [], it.data[:4], it.data[it.begin - 12:it.begin], port) for it, port in sent]
    for count, insn in enumerate(insns, 1):
        kinds = told(room, insns[:count])
        if kinds is None:
            return
        follow(machines, insn, kinds)
        seen["states"] += 1
        seen["numbers of which more is known than their size"] += is_kept(insn, kinds)


main(__doc__, check, PROGRAMS, KINDS)
