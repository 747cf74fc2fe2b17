#!/usr/bin/env python3
"""The node's files of tests/node_files.txt: the program and the module for Python give the answer that is stored with each, and read the
same node from a good one. What only a library says is left to python/tests, which has one. Then node's files of random parts, of which
both must give one answer."""
from __future__ import annotations

import re
import sys
from collections import Counter
from collections.abc import Iterator
from pathlib import Path
from random import Random

sys.dont_write_bytecode = True
sys.path.insert(0, str(Path(__file__).resolve().parent.parent))
from generator import main
from node_files import GOOD, UNREAD, beside, node_files
from rmapctl import TOP, Differs, Room

sys.path.insert(0, str(TOP / "python"))
from sandbarstove.files import NodeFile, NodeFileFault, read_node_file

# How many runs the gate makes, and how many files of random parts each compares.
RUNS, FILES = 10, 40

# The folder of the node's files, and the name of each.
FOLDER, NAME = "beside", "beside/node.toml"

# Parts of a node's file, right and wrong.
VALUES = ["1", "0", "-1", "254", "255", "256", "0xA0", "0o7", "0b1", "1_0", "1__0", "01", "+3", "1.5", "1e3", "inf", "-nan", "true", "false",
          '"yes.img"', "'./yes.img'", '"a\\u0062"', '"\\x41"', '"\\e"', '"\\z"', '""', "''", '"""a"""', "[]", "[1, 2]", "[1, 2,]", "[[]]",
          "{}", "{a = 1}", "{a = 1,}", "{a = 1\n}", "{a.b = 1, a.c = 2}", "{a = {b = 1}, a.c = 1}", "1979-05-27", "07:32", "07:32:61",
          "1979-05-27T07:32:00Z", "1979-05-27 07:32", "2023-02-29", "[1 # a comment\n]", "{a = 1 # }\n}", "9223372036854775807",
          "9223372036854775808", "", "yes", '"', "[", "{", "}", "1 2", "{cells = 1}", "[{cells = 1}]", "[{cells = 1,}, {cells = 2\n}]"]
KEYS = ["address", "ports", "program", "bank", "map", "publish", "load", "base", "size", "journal", "contents", "cells", "peak", "slot", "image", "other",
        '"ports"', "'map'", "map.cells", "a.b", "", '"\\u0061ddress"', "address ", "é"]
HEADS = ["[[bank]]", "[[map]]", "[[publish]]", "[[load]]", "[bank]", "[map.a]", "[[map.a]]", "[[bank]] # a comment", "[[ map ]]", "[[map]", "[a]", "[a.b]", "[[]]"]
WHOLE = ["base = 0\nsize = 8\njournal = 4", "cells = 3", 'slot = 1\nimage = "yes.img"', "base = 1\nsize = 8\njournal = 4\n", "peak = true"]


def folder(room: Room) -> None:
    """Writes the files beside."""
    (room.folder / FOLDER).mkdir(exist_ok=True)
    for name, content in beside().items():
        room.put(f"{FOLDER}/{name}", content)
    room.put("packets", b"")


def of_program(room: Room, *words: str) -> tuple[str, str]:
    """The answer of the program to the words with a node's file, and what it prints."""
    done = room.job(*words)
    text = done.out.decode()
    if done.status == 0:
        return GOOD, text
    found = re.match(r"node fault (\d)\n|(cannot read )", text)
    if not found:
        raise Differs(f"$ {' '.join(words)}: status {done.status}, {text!r}")
    return found[1] or UNREAD, text


def of_module(room: Room) -> tuple[str, NodeFile | None]:
    """The answer of the module, and the node."""
    try:
        return GOOD, read_node_file(room.folder / NAME)
    except NodeFileFault as fault:
        return str(fault.code) if fault.code else UNREAD, None


def lines_of(node: NodeFile) -> Iterator[str]:
    """The lines of `rmapctl node`, without what the programs weigh."""
    yield f"address {node.address:02X}"
    yield f"ports {node.ports}"
    for number, bank in enumerate(node.banks):
        contents = f" contents {len(bank.contents)}" if bank.contents else ""
        yield f"bank {number:02X} {bank.base:08X} {bank.base + bank.size - 1:08X} size {bank.size} journal {bank.journal}{contents}"
    for number, row in enumerate(node.maps):
        yield f"map {number} cells {row.cells}{' peak' * row.peak}"
    yield "program"
    for number, publish in enumerate(node.publishes, 1):
        yield f"publish {number} slot {publish.slot}"


def same_node(room: Room, node: NodeFile | None) -> str | None:
    """What differs between the node that the module read and the one that the program prints."""
    _, text = of_program(room, "node", NAME)
    wanted = re.sub(r" weight \d+$", "", text, flags=re.M).splitlines()
    came = list(lines_of(node)) if node else []
    return None if came == wanted else f"the module reads {came}, the program {wanted}"


def listed(room: Room) -> Iterator[str | None]:
    """The files of the list."""
    folder(room)
    for file in node_files():
        room.put(NAME, file.content)
        answer, _ = of_program(room, "judge", "packets", "--node", NAME)
        yield None if answer == file.answer else f"{file.title}: the program says {answer}, wanted {file.answer}"
        if file.wants_library:
            continue
        answer, node = of_module(room)
        yield None if answer == file.answer else f"{file.title}: the module says {answer}, wanted {file.answer}"
        if file.answer == GOOD:
            found = same_node(room, node)
            yield found and f"{file.title}: {found}"


def text_of(random: Random) -> str:
    """A node's file of random parts."""
    rows = []
    for _ in range(random.randrange(5)):
        if random.randrange(3):
            rows.append(f"{random.choice(KEYS)} = {random.choice(VALUES)}")
        else:
            rows.append(random.choice(HEADS))
            rows += random.sample(WHOLE, random.choice([0, 1, 1, 1, 2]))
    return random.choice(["\n", "\n", "\r\n"]).join(rows) + "\n"


def check(random: Random, room: Room, seen: Counter[str]) -> None:
    """Files of random parts: both give one answer."""
    folder(room)
    for _ in range(FILES):
        text = text_of(random)
        room.put(NAME, text)
        wanted, _ = of_program(room, "node", NAME)
        answer, node = of_module(room)
        differs = f"the module says {answer}, the program {wanted}" if answer != wanted else same_node(room, node) if node else None
        if differs:
            raise Differs(f"{text!r}: {differs}")
        seen[answer] += 1


main(__doc__, check, RUNS, {GOOD: 20, "1": 20, "2": 20, "5": 3, "6": 3}, [listed])
