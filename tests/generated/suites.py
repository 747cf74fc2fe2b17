#!/usr/bin/env python3
"""Suites of random nodes of a file: each packet meets its row by a node that was written from the pages alone, each row before the program
is there, nothing may change where it is not allowed, the index has a line for each packet, and the same words print the same. One node in
four has a policy table: by `--table` each verdict is there that some of many commands gets, and the packets meet their rows."""
from __future__ import annotations

import sys
from collections import Counter
from pathlib import Path
from random import Random

sys.dont_write_bytecode = True
sys.path.insert(0, str(Path(__file__).resolve().parent.parent))
from generated.own_nodes import File
from generator import main
from models.fields import Fields
from models.images import parsed
from models.nodes import Bank, OwnNode, Packet
from models.policies import ADDRESSES, BYTES, CELLS, ENDS, MAPS, rule
from models.tables import Rule, decide
from models.world import BASE, CONTROL, MODIFY, SIZE, STAGING, WRITE
from packets import header
from rmapctl import Differs, Room

# How many nodes the gate makes.
NODES = 40

# The rows that each node has, if memory may change anywhere.
ALWAYS = ["short", "short+protocol", "protocol", "protocol+reply-type", "protocol+short", "reply-type", "reply-type+short",
          "reply-type+header-crc", "header-crc", "header-crc+unused-code", "reserved-type", "unused-code", "unused-code+target-address",
          "target-address", "target-address+rmw-length", "rmw-length", "rmw-length+verify-buffer", "verify-buffer", "verify-buffer+length",
          "length", "length+place", "place"]

# What a row wants before its program: the reason to discard, or the status and whether the length decides.
DISCARDS = {"short": 1, "protocol": 2, "reply-type": 3, "header-crc": 4}
HEADERS = {"reserved-type": 2, "unused-code": 2, "target-address": 12, "rmw-length": 11, "verify-buffer": 9, "length": 10, "place": 10}
BODIES = {"eep": 7, "early-eop": 5, "too-much-data": 6, "data-crc": 4}

# What the runs have to come to, and how often.
KINDS = {"packets": 5000, "publishes": 20, "nodes loaded again": 5, "program-3": 3, "program-10": 3, "program-12": 1, "eep": 20, "write": 100, "load": 50, "key": 50, "reads only": 15,
         "tables": 5, "verdicts by tables": 30}

# Commands of each slot of which a table decides: the instruction, and the lengths.
COMMANDS = [([0x4C, 0x48], [1, 4, 16, 4096]), ([0x6C, 0x68], [1, 4, 16, 4096]), ([0x5C], [0, 2, 4, 8])]


def packet_of(line: str) -> Packet:
    words = line.split()
    return Packet(bytes.fromhex("".join(words[1:-1])), words[-1] == "EOP")


def verdict(node: OwnNode, packet: Packet) -> int:
    """The verdict of a program on cells that nobody asked."""
    node.cells = [[0] * cells for cells, _ in node.maps]
    return node.verdict(0, packet)[0]


def look(node: OwnNode, row: str, packet: Packet) -> str | None:
    """Why a packet does not meet its row, if it does not."""
    first, why = row.split("+")[0], packet.discard()
    if first in DISCARDS or why is not None:
        return None if why == DISCARDS.get(first) else f"discard {why}"
    status = node.header_status(packet)
    if first in HEADERS or status is not None:
        is_long = packet.length > 4096
        met = status == HEADERS.get(first) and (first not in ("length", "place") or is_long == (first == "length"))
        return None if met else f"status {status} of the header"
    if first == "key":
        return None
    came = verdict(node, packet)
    if first.startswith("program-"):
        return None if came == int(first.removeprefix("program-")) else f"verdict {came}"
    if came != 0 or packet.body_status() != BODIES.get(first, 0):
        return f"verdict {came}, body {packet.body_status()}"
    return None


def changes(packet: Packet) -> tuple[int, int, int] | None:
    """The extended address and the addresses that a packet might change, if it has a whole header."""
    if len(packet.data) < 3 or len(packet.data) < packet.begin or packet.code < 8 and packet.code != MODIFY:
        return None
    count = packet.length if packet.instruction & 4 else min(packet.length, 1)
    return packet.extended, packet.address, packet.address + max(count, 1) - 1


def same_suite(room: Room, *words: str) -> tuple[list[str], list[str]]:
    """The lines and the index of a suite, which are of the same packets."""
    lines, index = (room.printed("suite", "--node", "node.toml", *words, *more).splitlines() for more in ((), ("--index",)))
    items = [text.split(" ", 2) for text in index if not text.startswith("- ")]
    if [number for number, *_ in items] != [str(number) for number in range(1, len(lines) + 1)]:
        raise Differs(f"the index has {len(items)} packets, and there are {len(lines)} lines")
    return lines, [row for _, row, _ in items]


def slot_of(packet: Packet) -> int:
    """The slot whose program judges a command."""
    return 3 if packet.extended == 0xFF else 1 if packet.has(WRITE) else 2 if packet.code == MODIFY else 0


def commands() -> list[Packet]:
    """Commands of each slot, with keys, initiators and places that a rule may name."""
    places = [(instruction, 0, address, length) for instructions, lengths in COMMANDS for instruction in instructions for length in lengths
              for address in (*ADDRESSES, *ENDS, BASE + SIZE - 1)]
    places += [(instruction, 0xFF, address, length) for instructions, lengths in COMMANDS for instruction in instructions for length in lengths
               for address in (0, 0x10, STAGING - 4)]
    places += [(0x4C, 0xFF, CONTROL, 8), (0x6C, 0xFF, CONTROL, 4)]
    return [Packet(header(instruction, address, length, key=key, initiator=initiator, extended=extended) + b"\0")
            for instruction, extended, address, length in places for key in (*BYTES, 0x11) for initiator in (*BYTES, 0x67)]


def verdicts_of(node: OwnNode, rules: list[Rule]) -> set[tuple[int, int]]:
    """The slots and verdicts that commands get on cells that nobody asked, as far as they come to a program."""
    return {(slot_of(packet), decide(rules, Fields(packet.data), lambda *_: 0)) for packet in commands() if node.header_status(packet) is None}


def met(node: OwnNode, seen: Counter[str], lines: list[str], rows: list[str]) -> set[tuple[int, int]]:
    """The slots and verdicts of the rows of programs, if each packet meets its row."""
    came = set()
    for line, row in zip(lines, rows):
        packet = packet_of(line)
        why = look(node, row, packet)
        if why:
            raise Differs(f"{row}: {why}: {line}")
        seen[row] += 1
        if row.startswith("program-") and "+" not in row:
            came.add((slot_of(packet), int(row.removeprefix("program-"))))
    return came


def reloaded(node: OwnNode, seen: Counter[str], lines: list[str], rows: list[str]) -> None:
    """The last rows load the program of each slot again, if no program asks cells and that of slot 3 lets them pass."""
    before, published = [image.spelled() for image, _ in node.slots], node.published
    loads = [line for line, row in zip(lines, rows) if row == "load"]
    if node.maps or not loads:
        return
    for line in loads:
        node.served(0, packet_of(line))
    if node.published != published + 4 or [image.spelled() for image, _ in node.slots] != before:
        raise Differs(f"the loads publish {node.published - published} programs, or others than the node's")
    seen["nodes loaded again"] += 1


def tabled(random: Random, room: Room, seen: Counter[str]) -> None:
    """The suite of a node whose programs are the image of a table."""
    rules = [rule(random) for _ in range(random.randrange(7))]
    room.put("own.policy", "".join(own.text() for own in rules))
    room.printed("policy", "own.policy", "image", "--final", "--maps", ",".join(map(str, CELLS)))
    room.put("node.toml", 'program = "image"\n' + "".join(f"[[map]]\ncells = {cells}\n" for cells in CELLS))
    node = OwnNode(0xFE, 1, [Bank(BASE, SIZE, 1024, bytearray(SIZE))], MAPS, parsed(room.content("image") or b""))
    words = ("--loads", "--within", "0:0-FFFFFFFF", "--seed", str(random.randrange(100)))
    came = met(node, seen, *same_suite(room, "--table", "all:own.policy", *words))
    missing = verdicts_of(node, rules) - came
    if missing:
        raise Differs(f"no packet of these slots and verdicts: {sorted(missing)}")
    met(node, seen, *same_suite(room, *words))
    seen["tables"] += 1
    seen["verdicts by tables"] += len(came)


def check(random: Random, room: Room, seen: Counter[str]) -> None:
    if random.randrange(4) == 0:
        return tabled(random, room, seen)
    file = File(random, room, Counter())
    room.put("node.toml", file.text())
    for slot, image in file.publishes:
        file.node.publish(slot, image)
        seen["publishes"] += 1
    node = file.node
    seed = str(random.randrange(1000))
    everywhere = ",".join(f"{extended:02X}:0-FFFFFFFF" for extended in (*range(len(node.banks) + 1), 0x7F, 0xFE))
    lines, rows = same_suite(room, "--seed", seed, "--loads", "--within", everywhere)
    for line, row in zip(lines, rows):
        why = look(node, row, packet_of(line))
        if why:
            raise Differs(f"{row}: {why}: {line}")
        seen[row] += 1
    seen["packets"] += len(lines)
    reloaded(node, seen, lines, rows)
    bank = node.banks[0]
    # The bytes of some rows would lie past the last address.
    missing = [row for row in ALWAYS if row not in rows] if bank.base + 5000 < 1 << 32 else []
    if missing:
        raise Differs(f"no packet of {', '.join(missing)}")
    high = bank.base + random.randrange(bank.size)
    lines, rows = same_suite(room, "--seed", seed, "--within", f"0:{bank.base:X}-{high:X}")
    for line in lines:
        reach = changes(packet_of(line))
        if reach and (reach[0] != 0 or reach[1] < bank.base or reach[2] > high):
            raise Differs(f"may change {reach}: {line}")
    lines, rows = same_suite(room, "--seed", seed, "--without", "p")
    if any(changes(packet_of(line)) for line in lines) or any(row.startswith("p") for row in rows):
        raise Differs("a suite without --within writes, or has a row that is left out")
    seen["reads only"] += 1
    _, rows = same_suite(room, "--seed", seed, "--rows", "header-crc")
    if {row.split("+")[0] for row in rows} != {"header-crc"}:
        raise Differs(f"--rows header-crc has {sorted(set(rows))}")


if __name__ == "__main__":
    main(__doc__, check, NODES, KINDS)
