#!/usr/bin/env python3
"""Random programs, with and without loops, many of them refused: what `verify` refuses for its form is what docs/BPF.md says, and each
that is accepted comes to the verdict of a machine that was written from there, step by step, without a trap and within its budget."""
from __future__ import annotations

import re
import sys
from collections import Counter
from pathlib import Path
from random import Random

sys.dont_write_bytecode = True
sys.path.insert(0, str(Path(__file__).resolve().parent.parent))
from generator import main
from models.images import Image, form_fault
from models.programs import looped, straight
from models.runs import PLAIN_READ, compare_runs, compare_steps, read_of
from rmapctl import Differs, Room

# How many programs the gate makes.
PROGRAMS = 1200

# The codes of refusals for what values may do.
OF_VALUES = [4, 5, 6, 7, 8, 9, 11]

# What the runs have to come to, and how often.
KINDS = {"accepted": 400, "accepted, with loops": 150, "accepted, with loops in loops": 80, "refused": 120,
         "refused for its form": 15, "refused for its values": 80, "steps": 15_000}


def made(random: Random) -> Image:
    """A random program, whose budget is its weight, one less, or the greatest."""
    kind = random.randrange(4)
    if kind < 2:
        insns, loops = straight(random, *random.choice([(40, 100), (9, 6)])), []
    else:
        insns, loops = looped(random, random.choice([100, 60]))
    weight = Image(1, 1, insns, loops).weight
    budget = random.choice([weight, weight, 65_536, weight - 1] if kind % 2 else [weight, 65_536])
    return Image(random.choice([1, 2]), min(max(budget, 1), 65_536), insns, loops)


def is_accepted(room: Room, image: Image, seen: Counter[str]) -> bool:
    """Whether a program is accepted, with its weight; it is refused for its form where it has a fault of that."""
    printed = room.job("verify", "image").out.decode().strip()
    fault = form_fault(image)
    if fault is not None:
        if printed != f"refused V{fault[0]} slot {fault[1]}":
            raise Differs(f"verify: {printed}\nwanted: refused V{fault[0]} slot {fault[1]}")
        seen["refused for its form"] += 1
        return False
    if printed == f"accepted weight {image.weight} budget {image.budget}":
        return True
    refused = re.fullmatch(r"refused V(\d+) slot (\d+)", printed)
    if refused is None or int(refused[1]) not in OF_VALUES or int(refused[2]) not in image.at:
        raise Differs(f"verify: {printed}")
    seen["refused for its values"] += 1
    return False


def count_loops(image: Image, seen: Counter[str]) -> None:
    loops = image.loops
    seen["accepted, with loops"] += bool(loops)
    seen["accepted, with loops in loops"] += any(it.head < other.head < it.back for it in loops for other in loops)


def check(random: Random, room: Room, seen: Counter[str]) -> None:
    image = made(random)
    room.put("image", image.spelled())
    if not is_accepted(room, image, seen):
        seen["refused"] += 1
        return
    seen["accepted"] += 1
    count_loops(image, seen)
    sent = [(port, PLAIN_READ if port == 0 else read_of(random)) for port in (0, 1, 31, random.randrange(32))]
    if not compare_runs(room, image, [], sent):
        raise Differs("verify accepts what a node refuses")
    if random.randrange(4) == 0:
        seen["steps"] += compare_steps(room, image, [], sent[:2])


main(__doc__, check, PROGRAMS, KINDS)
