#!/usr/bin/env python3
"""Random policy tables of version 2, with comments, names and ports: the image of each draws and decides at each port as the rules that
are asked there do, of which the meaning was written from docs/POLICIES.md alone. A table that has no news compiles to the image of the
same table of version 1. A line that is spoilt is refused, with the fault that it has to have."""
from __future__ import annotations

import sys
from collections import Counter
from collections.abc import Iterator
from itertools import combinations
from pathlib import Path
from random import Random
from re import findall

sys.dont_write_bytecode = True
sys.path.insert(0, str(Path(__file__).resolve().parent.parent))
from generator import main, same_lines
from models.images import Image, parsed
from models.policies import CELLS, MAPS, command, port_table, rule
from models.runs import words_of
from models.tables import PortRule, decide, rules_at
from models.world import World
from rmapctl import Differs, Room

# How many tables the gate makes, on how many commands each decides, at how many ports, and how many tables without news.
TABLES, COMMANDS, PORTS, PLAIN = 300, 24, 4, 1000

# What the runs have to come to, and how often.
KINDS = {"commands": 4_000, "rules with ports": 600, "rules with names": 400, "other verdicts at another port": 200, "images of 300 slots": 10}

# What a line is spoilt to, and the fault.
SPOILT = [("read 20 * 00 A0000000 - 0", 5), ("read 20 * 00 nowhere - 0", 5), ("read 20 * 00 A0000000 A000000F - 0 port", 5),
          ("read 20 * 00 A0000000 A000000F - 0 port 32", 5), ("read 20 * 00 A0000000 A000000F - 0 port +1", 5),
          ("read 20 * 00 A0000000 A000000F - 0 port 1 1", 5), ("read 20 * 00 A0000000 A000000F - 0 bus 1", 5),
          ("read 20 * 00 A0000000 A000000F - 00", 5), ("write 2 * 00 A0000000 A000000F - 0", 5), (".version 2", 5), (".version 1", 5),
          (".ranges low 0000000A 0000000F", 5), (".range 1a 0000000A 0000000F", 5), (".range DEADBEEF 0000000A 0000000F", 5),
          (".range a-b 0000000A 0000000F", 5), (".range low 0000000A", 5), (".range low A 0000000F", 5), (".range low 0000000A F", 5),
          (".range low 0000000A 0000000F 0", 5), (".range low 0000000F 0000000A", 2), ("any * * * 0000000F 0000000A - 0", 2),
          ("any * * * 0000000A 0000000F 3:0:1 0", 4), ("any * * * 0000000A 0000000F 0:1:1 0 port 3", 4)]

# The table of docs/POLICIES.md.
CAMERA = [".version 2", "; Camera electronics: who may do what", ".range registers A0000000 A0000FFF", ".range frames    A0002000 A0002FFF",
          "", "read  20 *  00 registers          - 0", "read  20 67 00 frames             - 0", "write 20 67 00 frames         0:0:2 0 port 1",
          "any   *  67 FF 00000000 FFFFFFFF  - 0 port 1     ; loads: the ground's computer, by port 1 only"]

# What a rule of version 2 has that ends too early.
EIGHT = "and a rule has 8: KIND KEY INIT EXT LOW HIGH QUOTA VERDICT, or NAME for LOW HIGH"

# A spoilt form of each line that can be spoilt after the first, and what is told of it.
SPOILT_LINES = {2: (CAMERA[1][2:], f"ends after word 6, {EIGHT}"),
                3: (CAMERA[2][:-1], "word 4: HIGH is eight hexadecimal digits"),
                4: (CAMERA[3].replace("A0002000", "A000200"), "word 3: LOW is eight hexadecimal digits"),
                5: ("read", f"ends after word 1, {EIGHT}"),
                6: (CAMERA[5].replace("20", "2"), "word 2: KEY is two hexadecimal digits, or *"),
                7: (CAMERA[6].replace("frames", "frame"), "word 5: NAME is of no range above"),
                8: (CAMERA[7].replace("0:0:2", "0:0"), "word 6: QUOTA is - or MAP:CELL:LIMIT in decimal, with LIMIT at most 2147483647"),
                9: (CAMERA[8].replace("port 1 ", "port 32 "), "word 9: after VERDICT only port P may come, with P from 0 to 31")}


class ByTable(World):
    """A node at which a table decides."""

    def __init__(self, rules: list[PortRule], image: Image):
        super().__init__(image, MAPS, PORTS)
        self.rules, self.others = rules, 0

    def draw(self, index: int, key: int) -> int:
        self.cells[index][key] += 1
        return self.cells[index][key] - 1

    def end(self, port: int) -> str:
        """The open command ends with the verdict of the rules that are asked at its port, and not with that of the image."""
        it = self.ports[port].open
        assert it is not None
        packet = it.packet
        by_first = {decide(rules_at(self.rules, other), packet, lambda *_: 0) for other in range(PORTS)}
        self.others += len(by_first) > 1
        it.asked, it.verdict = None, decide(rules_at(self.rules, port), packet, self.draw)
        return self.effect(port)


def places_told(room: Room, lines: list[str]) -> tuple[str, list[int]]:
    """What `policy` prints of a table of these lines, and of which lines it says on standard error what is wrong."""
    room.put("spoilt", "\n".join(lines))
    done = room.job("policy", "spoilt", "none", "--maps", ",".join(map(str, CELLS)))
    if done.status != 1:
        raise Differs(f"status {done.status} of a spoilt table")
    return done.out.decode(), [int(it) for it in findall(r"(?m)^    line (\d+) ", done.err.decode())]


def spoil(random: Random, room: Room, text: str) -> None:
    """A line more, which is wrong; and then up to five more, each of which is told in the one run, once."""
    line, fault = random.choice(SPOILT)
    lines = text.splitlines()
    place = random.randrange(1, len(lines) + 1)
    out, places = places_told(room, [*lines[:place], line, *lines[place:]])
    if out != f"policy fault {fault}\n" or places != [place + 1]:
        raise Differs(f"{line} in line {place + 1}: {out}{places}")
    whole = [(it, False) for it in lines]
    for _ in range(random.randrange(1, 6)):
        whole.insert(random.randrange(1, len(whole) + 1), (random.choice(SPOILT)[0], True))
    wanted = [number for number, (_, is_spoilt) in enumerate(whole, 1) if is_spoilt]
    out, places = places_told(room, [it for it, _ in whole])
    if sorted(places) != wanted:
        raise Differs(f"spoilt are {wanted}, told {places}")


def check(random: Random, room: Room, seen: Counter[str]) -> None:
    rules, text = port_table(random, random.randrange(23), [*range(PORTS), 31])
    room.put("table", text)
    room.printed("policy", "table", "image", "--maps", ",".join(map(str, CELLS)))
    image = parsed(room.content("image") or b"")
    world = ByTable(rules, image)
    sent = [(random.randrange(PORTS), command(random)) for _ in range(COMMANDS)]
    wanted = [world.judge(port, packet) for port, packet in sent]
    entries = world.journal()
    seen["commands"] += len(sent)
    seen["rules with ports"] += sum(own.port is not None for own in rules)
    seen["rules with names"] += sum(own.name is not None for own in rules)
    seen["other verdicts at another port"] += world.others
    seen["images of 300 slots"] += sum(it.slots for it in image.insns) >= 300
    given = "".join(f"{packet.line(port)}\n" for port, packet in sent)
    same_lines("live", room.printed("live", *words_of(MAPS, PORTS), given=given + "cells\n"), wanted + world.words() + entries)
    spoil(random, room, text)


def camera_spoilt(room: Room) -> Iterator[str | None]:
    """Each line of the table of docs/POLICIES.md is spoilt in turn, and each choice of several of them at once: every spoilt line is
    told in the one run, with its word and what is wanted there, and no other line."""
    room.put("camera", "\n".join(CAMERA))
    yield None if room.job("policy", "camera", "image", "--maps", "1").status == 0 else "the table itself is refused"
    for count in range(1, len(SPOILT_LINES) + 1):
        for chosen in combinations(SPOILT_LINES, count):
            lines = [SPOILT_LINES[number][0] if number in chosen else line for number, line in enumerate(CAMERA, 1)]
            room.put("spoilt", "\n".join(lines))
            done = room.job("policy", "spoilt", "none", "--maps", "1")
            told = [it.strip() for it in done.err.decode().splitlines() if it.startswith("    line ")]
            wanted = [f"line {number} {SPOILT_LINES[number][1]}" for number in chosen]
            is_right = told == wanted and done.out == b"policy fault 5\n" and done.status == 1 and room.content("none") is None
            yield None if is_right else f"lines {chosen}: {done.out.decode()}{told}"
    room.put("spoilt", "\n".join([".version 3", *CAMERA[1:]]))
    done = room.job("policy", "spoilt", "none", "--maps", "1")
    told = {int(it) for it in findall(r"(?m)^    line (\d+) ", done.err.decode())}
    # All other lines are those of version 2.
    yield None if done.out == b"policy fault 5\n" and told == {1} else f"version 3: {done.out.decode()}{told}"


def tables_without_news(room: Room) -> Iterator[str | None]:
    """A text with `.version 2` before it, and no other news, has the image of the text."""
    for seed in range(PLAIN):
        random = Random(seed)
        text = "".join(rule(random).text() for _ in range(random.randrange(13)))
        room.put("one", text)
        room.put("two", ".version 2\n" + text)
        maps = ",".join(map(str, CELLS))
        room.printed("policy", "one", "first", "--maps", maps)
        room.printed("policy", "two", "second", "--maps", maps)
        yield None if room.content("first") == room.content("second") else f"seed {seed}: another image"


def largest_tables(room: Room) -> Iterator[str | None]:
    """24 rules with every field and a quota fit, and 22 where each asks its port; one more is too long."""
    for port, most, slots in [("", 24, 496), (" port 3", 22, 501)]:
        for count in (most, most + 1):
            room.put("largest", ".version 2\n" + f"write 20 67 00 00000000 FFFFFFFF 0:0:1 0{port}\n" * count)
            done = room.job("policy", "largest", "out", "--maps", "1")
            wanted = f"slots {slots}\n" if count == most else "policy fault 1\n"
            yield None if done.out.decode() == wanted else f"{count}{port}: {done.out.decode()}"


main(__doc__, check, TABLES, KINDS, [camera_spoilt, tables_without_news, largest_tables])
