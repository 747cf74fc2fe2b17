#!/usr/bin/env python3
"""Journals of `live`, of commands over the ends of pages and of the instrument's own writes: what is printed is what a node prints that
was written from docs/PROTOCOL.md alone, and done again on zeros the entries leave what reads of the bank then find. With --entries each
of these entries is before the answer to its packet, and no journal has one."""
from __future__ import annotations

import sys
from collections import Counter
from pathlib import Path
from random import Random

sys.dont_write_bytecode = True
sys.path.insert(0, str(Path(__file__).resolve().parent.parent))
from generator import main, same_lines
from models.images import assembled
from models.world import BASE, ROOM, SIZE, Packet, World, done
from packets import crc, header
from rmapctl import Differs, Room

# How many talks the gate makes, and how many lines each has.
TALKS, LINES = 25, 150

# How many bytes a page of the bank's memory has, and at how many of its ends commands lie.
PAGE, ENDS = 4096, 4

# What the runs have to come to, and how often.
KINDS = {"journals": 100, "bytes set": 40, "entries": 2_000, "commands over the end of a page": 400, "full journals": 1}

YES = assembled([".budget 2", "mov r0, 0", "exit"])


def made(instruction: int, address: int, length: int, data: bytes) -> Packet:
    head = header(instruction, address, length)
    return Packet(head + bytes([crc(head)]) + (data + bytes([crc(data)]) if instruction & 0x20 or instruction == 0x5C else b""))


def command(random: Random) -> Packet:
    """A command near the end of one of the first pages."""
    instruction = random.choice([0x4C, 0x6C, 0x6C, 0x68, 0x5C])
    count = 2 * (1 + random.randrange(4)) if instruction == 0x5C else random.choice([1 + random.randrange(60), 1, PAGE])
    address = BASE + PAGE * (1 + random.randrange(ENDS)) - random.randrange(40)
    return made(instruction, address, count, random.randbytes(count))


class Talk:
    """A talk with a node: its lines, what is wanted, also with --entries, and memory that only the entries and the instrument's writes
    made."""

    def __init__(self, ports: int):
        self.world = World(YES, [], ports)
        self.replayed = bytearray(SIZE)
        self.lines: list[str] = []
        self.wanted: list[str] = []
        self.at_once: list[str] = []

    def hand_out(self, seen: Counter[str], is_asked: bool = True) -> None:
        """Hands the journal out, and does its entries again."""
        lines = self.world.journal()
        if is_asked:
            self.at_once.append("journal 0 entries")
        self.wanted += lines
        seen["journals"] += 1
        for line in lines[:-1]:
            *_, status, digits, _ = line.split()
            packet = Packet(bytes.fromhex(digits))
            seen["entries"] += 1
            if status == "0":
                done(self.replayed, packet, packet.address - BASE)

    def send(self, port: int, packet: Packet, seen: Counter[str]) -> None:
        """A packet; a full journal is handed out before it."""
        if len(self.world.entries) == ROOM:
            self.hand_out(seen, False)
            seen["full journals"] += 1
        self.lines.append(packet.line(port))
        before = len(self.world.entries)
        answer = self.world.judge(port, packet)
        self.wanted.append(answer)
        self.at_once += [f"entry 00 {entry}" for entry in self.world.entries[before:]] + [answer]
        first = packet.address - BASE
        seen["commands over the end of a page"] += first // PAGE != (first + packet.length - 1) // PAGE

    def put(self, address: int, data: bytes, seen: Counter[str]) -> None:
        """The instrument's own write, before which the journal is handed out."""
        self.lines.append(f"set 00 {address:08X} {data.hex().upper()}")
        self.hand_out(seen)
        begin = address - BASE
        for memory in (self.world.memory, self.replayed):
            memory[begin:begin + len(data)] = data
        for wanted in (self.wanted, self.at_once):
            wanted.append(f"set {len(data)}")
        seen["bytes set"] += len(data)


def check(random: Random, room: Room, seen: Counter[str]) -> None:
    talk = Talk(3)
    room.put("image", YES.spelled())
    is_long = random.randrange(8) == 0
    for _ in range(ROOM + 50 if is_long else LINES):
        kind = 2 if is_long else random.randrange(40)
        if kind == 0:
            talk.lines.append("journal")
            talk.hand_out(seen)
        elif kind == 1:
            talk.put(BASE + random.randrange(SIZE - 8), random.randbytes(1 + random.randrange(8)), seen)
        else:
            talk.send(random.randrange(3), command(random), seen)
    for page in range(ENDS + 1):
        talk.send(0, made(0x4C, BASE + PAGE * page, PAGE, b""), seen)
    talk.hand_out(seen)
    if talk.replayed != talk.world.memory:
        raise Differs("the entries of the node here do not leave its memory")
    for more, wanted in ([], talk.wanted), (["--entries"], talk.at_once):
        words = ["live", "--image", "image", "--ports", "3", *more]
        same_lines(" ".join(words), room.printed(*words, given="\n".join(talk.lines) + "\n"), wanted)


main(__doc__, check, TALKS, KINDS)
