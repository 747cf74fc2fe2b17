#!/usr/bin/env python3
"""Random nodes of a file: 1 to 8 banks, ports, maps, a program, contents, and images that are published before the first packet. `judge`,
`serve`, `trace` and `live` print what a node prints that was written from the pages alone, in which a program in slot 3 has no say on
what is published; and `trace` takes no contents."""
from __future__ import annotations

import sys
from collections import Counter
from pathlib import Path
from random import Random

sys.dont_write_bytecode = True
sys.path.insert(0, str(Path(__file__).resolve().parent.parent))
from generator import main, same_lines
from models.images import Image, assembled
from models.machine import Map
from models.nodes import Bank, OwnNode, Packet, yes_image
from packets import crc, header
from rmapctl import Differs, Room

# How many nodes the gate makes, and how many packets each judges.
NODES, PACKETS = 60, 40

# What the runs have to come to, and how often.
KINDS = {"banks": 150, "publishes": 40, "publishes behind one for their slot": 5, "publishes behind a program in slot 3": 10, "load results": 20, "full journals": 20, "bytes set": 50, "contents": 20, "replies": 600,
         "nodes of more than one port": 15, "commands at a bank behind the first": 300, "served": 5, "traced": 5, "untraced": 5}

# What is told of contents that a schedule does not take.
UNTRACED = "bad option\n    contents is there in the node's file: the banks of a schedule begin with zeros\n"

# Programs that need no map, and those that draw tickets or ask for the greatest of a cell.
PLAIN = [
    ["mov r0, 0", "exit"],
    ["mov r0, 10", "exit"],
    ["mov r0, 3", "exit"],
    ["ldxb r3, [r1+3]", "mov r0, 0", "jeq r3, 0x20, ok", "mov r0, 3", "ok:", "exit"],
    ["ldxb r3, [r2+0]", "mov r0, 0", "jeq r3, 0x67, ok", "mov r0, 10", "ok:", "exit"],
    ["mov r0, 0", "jeq r3, 0, ok", "mov r0, 12", "ok:", "exit"],
]
TICKETS = ["mov r2, {key}", "ldmap r1, {map}", "call 2", "jlt r0, {most}, yes", "mov r0, 10", "exit", "yes:", "mov r0, 0", "exit"]
PEAKS = ["ldxb r6, [r2+2]", "mov r2, {key}", "ldmap r1, {map}", "mov r3, r6", "call 3", "jne r0, r6, deny", "mov r0, 0", "exit",
         "deny:", "mov r0, 10", "exit"]


def program(random: Random, maps: list[Map]) -> Image:
    """A program for a node with those maps."""
    if maps and random.randrange(2):
        index = random.randrange(len(maps))
        cells, is_peak = maps[index]
        lines = PEAKS if is_peak else TICKETS
        lines = [line.format(key=random.randrange(cells), map=index, most=random.randrange(1, 20)) for line in lines]
        return assembled([".version 2" if is_peak else "", ".budget 12", *lines])
    return assembled([".budget 6", *random.choice(PLAIN)])


def number(random: Random, value: int) -> str:
    """A number as TOML has it."""
    return random.choice([str(value), f"0x{value:X}", f"0x{value:08x}", f"{value:_}"])


class File:
    """A node's file that is written, its files, and the node."""

    def __init__(self, random: Random, room: Room, seen: Counter[str]):
        self.random, self.room, self.seen = random, room, seen
        self.lines: list[str] = []
        self.tables: list[str] = []
        self.begins_with_bytes = False
        address = random.choice([0xFE, 0x42, random.randrange(0x20, 0xFF)])
        ports = random.choice([1, 1, 1, 2, 3, random.randrange(1, 33)])
        if address != 0xFE or random.randrange(2):
            self.lines.append(f"address = {number(random, address)}")
        if ports != 1 or random.randrange(2):
            self.lines.append(f"ports = {ports}")
        banks = self.banks() if random.randrange(8) else [Bank(0xA0000000, 65_536, 1024, bytearray(65_536))]
        maps = [self.map() for _ in range(random.choice([0, 0, 1, 2]))]
        image = yes_image()
        if random.randrange(2):
            image = program(random, maps)
            self.lines.append(f'program = "{self.put("program", image.spelled())}"')
        self.node = OwnNode(address, ports, banks, maps, image)
        seen["banks"] += len(banks)
        seen["nodes of more than one port"] += ports > 1
        self.publishes = [self.publish(maps) for _ in range(random.choice([0, 0, 1, 2, 3, 5]))]

    def put(self, name: str, content: bytes) -> str:
        """Puts a file beside the node's, and gives its name there."""
        self.room.put(name, content)
        return name

    def banks(self) -> list[Bank]:
        return [self.bank(number) for number in range(self.random.randrange(1, 9))]

    def bank(self, place: int) -> Bank:
        random = self.random
        size = random.choice([1, 4096, 5000, random.randrange(1, 9000)])
        base = random.choice([0, 0xA0000000, (1 << 32) - size, random.randrange((1 << 32) - size)])
        room = random.choice([1, 3, 10, 1024])
        memory = bytearray(size)
        self.tables += ["[[bank]]", f"base = {number(random, base)}", f"size = {number(random, size)}", f"journal = {room}"]
        if random.randrange(3) == 0:
            data = random.randbytes(random.randrange(size + 1))
            memory[:len(data)] = data
            self.tables.append(f'contents = "{self.put(f"contents{place}", data)}"')
            self.seen["contents"] += 1
            self.begins_with_bytes |= bool(data)
        return Bank(base, size, room, memory)

    def map(self) -> Map:
        cells, is_peak = self.random.randrange(1, 9), bool(self.random.randrange(2))
        self.tables += ["[[map]]", f"cells = {cells}"]
        if is_peak or self.random.randrange(2):
            self.tables.append(f"peak = {str(is_peak).lower()}")
        return cells, is_peak

    def publish(self, maps: list[Map]) -> tuple[int, bytes]:
        slot, image = self.random.choice([0, 1, 2, 3, 3]), program(self.random, maps).spelled()
        name = self.put(f"image{len(self.tables)}", image)
        self.tables += ["[[publish]]", f"slot = {slot}", f'image = "{name}"']
        return slot, image

    def text(self) -> str:
        return "\n".join([*self.lines, *self.tables]) + "\n"


def packet_for(random: Random, node: OwnNode) -> Packet:
    """A command that is mostly for a bank of the node, near one of its ends; or for the load result."""
    instruction = random.choice([0x4C, 0x6C, 0x6C, 0x68, 0x5C, 0x7C, 0x48, 0x44, random.randrange(256)])
    target = node.address if random.randrange(12) else random.randrange(256)
    key, initiator = random.choice([(0, 0x67), (0x20, 0x67), (0, 0x76)])
    extended = random.randrange(len(node.banks) + 1)
    length = random.choice([0, 1, 2, 4, 8, random.randrange(40)])
    transaction = random.randrange(65_536)
    if random.randrange(8) == 0:
        instruction, extended, address, length = 0x4C, 0xFF, 0x10000, 8
    else:
        bank = node.banks[min(extended, len(node.banks) - 1)]
        near = random.choice([bank.base, bank.base + bank.size - length, bank.base + bank.size // 2])
        address = min(max(near + random.randrange(-3, 4), 0), (1 << 32) - 1)
    data = random.randbytes(length)
    head = header(instruction, address, length, key=key, initiator=initiator, transaction=transaction, extended=extended, target=target)
    head = head[:4] + bytes(4 * (instruction % 4)) + head[4:]
    wants = instruction & 0x20 or instruction & 0x3C == 0x1C
    return Packet(head + bytes([crc(head)]) + (data + bytes([crc(data)]) if wants else b""), random.randrange(20) > 0)


def judged(random: Random, file: File, seen: Counter[str]) -> None:
    """The packets that `judge` takes."""
    node, lines, wanted = file.node, [], []
    for _ in range(PACKETS):
        port, packet = random.randrange(len(node.staging)), packet_for(random, node)
        lines.append(packet.line(port))
        wanted.append(node.judge(port, packet))
        seen["replies"] += wanted[-1].endswith("EOP")
        seen["load results"] += packet.discard() is None and packet.extended == 0xFF
        seen["commands at a bank behind the first"] += packet.discard() is None and 0 < packet.extended < len(node.banks)
    file.room.put("lines", "\n".join(lines) + "\n")
    same_lines("judge", file.room.printed("judge", "lines", "--node", "node.toml"), wanted)
    traced(file, wanted, seen)
    if len(node.staging) == 1:
        served(file, wanted, seen)


def traced(file: File, wanted: list[str], seen: Counter[str]) -> None:
    """The same packets at `trace`, without the steps of the programs."""
    if file.begins_with_bytes:
        seen["untraced"] += 1
        done = file.room.job("trace", "lines", "--node", "node.toml", joined=True)
        if (done.out.decode(), done.status) != (UNTRACED, 2):
            raise Differs(f"status {done.status}: {done.out.decode()}wanted: {UNTRACED}")
        return
    seen["traced"] += 1
    printed = file.room.printed("trace", "lines", "--node", "node.toml").splitlines()
    same_lines("trace", [line for line in printed if not line.startswith("    ") and " taken slot " not in line], wanted)


def served(file: File, wanted: list[str], seen: Counter[str]) -> None:
    """The same packets at `serve`, which has only one order if there is one port."""
    seen["served"] += 1
    replies = [line for line in wanted if line.endswith("EOP")]
    discarded = sum(" discard " in line for line in wanted)
    same_lines("serve", file.room.printed("serve", "lines", "--node", "node.toml"), [*replies, f"discarded {discarded} lost 0"])


def talked(random: Random, file: File, seen: Counter[str]) -> None:
    """The lines that `live` takes: packets, writes of the instrument, and what it is asked for."""
    node, lines, wanted, bad = file.node, [], [], False
    for _ in range(PACKETS):
        kind = random.randrange(16)
        if kind == 0:
            lines.append("journal")
            wanted += node.journals()
        elif kind == 1:
            lines.append("cells")
            wanted += node.words()
        elif kind == 2:
            extended = random.randrange(len(node.banks) + 1)
            bank = node.banks[min(extended, len(node.banks) - 1)]
            data = random.randbytes(random.randrange(1, 9))
            address = min(max(bank.base + random.choice([-1, 0, bank.size - len(data), bank.size]), 0), (1 << 32) - 1)
            lines.append(f"set {extended:02X} {address:08X} {data.hex().upper()}")
            told = node.set(extended, address, data)
            bad = bad or told is None
            wanted += [f"line {len(lines)} fault 6"] if told is None else told
            seen["bytes set"] += 0 if told is None else len(data)
        else:
            port, packet = random.randrange(len(node.staging)), packet_for(random, node)
            lines.append(packet.line(port))
            full = node.journals(full=True)
            seen["full journals"] += bool(full)
            wanted += [*full, node.judge(port, packet)]
    wanted += node.journals()
    done = file.room.job("live", "--node", "node.toml", given="\n".join(lines) + "\n")
    same_lines("live", done.out.decode(), wanted)
    if done.status != int(bad):
        raise Differs(f"live has status {done.status}, wanted {int(bad)}")


def check(random: Random, room: Room, seen: Counter[str]) -> None:
    file = File(random, room, seen)
    room.put("node.toml", file.text())
    done: list[int] = []
    for slot, image in file.publishes:
        file.node.publish(slot, image)
        seen["publishes"] += 1
        seen["publishes behind one for their slot"] += slot in done
        seen["publishes behind a program in slot 3"] += 3 in done
        done.append(slot)
    return (judged if random.randrange(2) else talked)(random, file, seen)


if __name__ == "__main__":
    main(__doc__, check, NODES, KINDS)
