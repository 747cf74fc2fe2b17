#!/usr/bin/env python3
"""Random policy tables: the image of each is accepted with its weight and no less, and draws and decides as the table does, of which the
meaning was written from docs/POLICIES.md alone."""
from __future__ import annotations

import sys
from collections import Counter
from pathlib import Path
from random import Random

sys.dont_write_bytecode = True
sys.path.insert(0, str(Path(__file__).resolve().parent.parent))
from generator import main, same_lines
from models.images import Image, parsed
from models.runs import words_of
from models.policies import CELLS, MAPS, command, rule
from models.tables import Rule, decide
from models.world import World
from rmapctl import Differs, Room

# How many tables the gate makes, and on how many commands each decides.
TABLES, COMMANDS = 250, 24

# What the runs have to come to, and how often.
KINDS = {"commands": 3_000, "commands that draw": 600, "commands that do not": 600, **{f"verdict {it}": 100 for it in (0, 3, 10, 12)}}


class ByTable(World):
    """A node at which a table decides."""

    def __init__(self, rules: list[Rule], image: Image):
        super().__init__(image, MAPS, 1)
        self.rules, self.drawn = rules, 0

    def draw(self, index: int, key: int) -> int:
        self.cells[index][key] += 1
        self.drawn += 1
        return self.cells[index][key] - 1

    def end(self, port: int) -> str:
        """The open command ends with the verdict of the table, and not with that of the image."""
        it = self.ports[port].open
        assert it is not None
        it.asked, it.verdict = None, decide(self.rules, it.packet, self.draw)
        return self.effect(port)


def compiled(room: Room, rules: list[Rule]) -> Image:
    """The image of a table. With a budget that is one less it is refused."""
    room.put("table", "".join(it.text() for it in rules))
    room.printed("policy", "table", "image", "--maps", ",".join(map(str, CELLS)))
    image = parsed(room.content("image") or b"")
    room.put("less", Image(image.version, image.budget - 1, image.insns, image.loops).spelled())
    refused = room.job("verify", "less", "--maps", ",".join(map(str, CELLS))).out.decode()
    if refused != "refused V15 slot 0\n" or image.weight != image.budget:
        raise Differs(f"weight {image.weight} budget {image.budget}, with one less: {refused}")
    return image


def check(random: Random, room: Room, seen: Counter[str]) -> None:
    rules = [rule(random) for _ in range(random.randrange(13))]
    world = ByTable(rules, compiled(room, rules))
    sent, wanted = [command(random) for _ in range(COMMANDS)], []
    for packet in sent:
        before = world.drawn
        wanted.append(world.judge(0, packet))
        seen["commands that draw" if world.drawn > before else "commands that do not"] += 1
    entries = world.journal()
    seen.update(f"verdict {entry.split()[4]}" for entry in entries[:-1])
    seen["commands"] += len(sent)
    given = "".join(f"{packet.line(0)}\n" for packet in sent)
    same_lines("live", room.printed("live", *words_of(MAPS, 1), given=given + "cells\n"), wanted + world.words() + entries)


main(__doc__, check, TABLES, KINDS)
