#!/usr/bin/env python3
"""Three models of a node, each written apart from the pages: they answer the same packets with the same replies, entries and results of
loads. What two of them and the program have wrong alike is not seen, so no two share a notion of an outcome. No job is done."""
from __future__ import annotations

import sys
from collections import Counter
from pathlib import Path
from random import Random

sys.dont_write_bytecode = True
sys.path.insert(0, str(Path(__file__).resolve().parent.parent))
from generator import main, same_lines
from models.images import BadImage, Image, assembled, parsed
from models.loads import Loader, Node, Policy, load_of
from models.nodes import Bank, OwnNode, Packet
from models.world import Packet as WorldPacket
from models.world import World
from packets import crc, header
from rmapctl import Room

RUNS, PACKETS = 100, 60
BASE, SIZE, ROOM = 0xA0000000, 65_536, 1024
MAPS = [(3, False), (2, True)]

# What the runs have to come to, and how often.
KINDS = {"replies": 2_000, "discarded": 100, "loads": 50, "status 0": 500, "loads by themselves": 100, "other images in the slot": 5}

PROGRAMS = [
    ["mov r0, 0", "exit"],
    ["mov r0, 10", "exit"],
    ["mov r0, 3", "exit"],
    ["ldxb r3, [r1+3]", "mov r0, 0", "jeq r3, 0x20, ok", "mov r0, 12", "ok:", "exit"],
    ["mov r2, 1", "ldmap r1, 0", "call 2", "jlt r0, 9, yes", "mov r0, 10", "exit", "yes:", "mov r0, 0", "exit"],
    # Lets a control write and a read of the result pass, and no write of the image.
    ["ldxb r3, [r2+5]", "mov r0, 0", "jeq r3, 1, ok", "mov r0, 10", "ok:", "exit"],
]


def program(random: Random) -> Image:
    return assembled([".budget 12", *random.choice(PROGRAMS), *["exit"] * random.randrange(2)])


def command(random: Random, instruction: int, extended: int, address: int, data: bytes, length: int) -> bytes:
    """A command, of which now and then something is wrong."""
    target = 0xFE if random.randrange(15) else 0x42
    head = header(instruction, address, length, key=random.choice([0, 0x20]), transaction=random.randrange(9), extended=extended, target=target)
    head = head[:4] + random.choice([bytes(12), random.randbytes(12)])[:4 * (instruction % 4)] + head[4:]
    wants = instruction & 0x20 or instruction & 0x3C == 0x1C
    whole = head + bytes([crc(head)]) + (data + bytes([crc(data)]) if wants else b"")
    way = random.randrange(25)
    if way == 0:
        return whole[:random.randrange(len(whole) + 1)]
    return whole + b"\0" if way == 1 else whole[:-1] + bytes([whole[-1] ^ 1]) if way == 2 else whole


def packets(random: Random) -> list[bytes]:
    """Commands to the bank, or the packets of a load, of which some may be missing."""
    if random.randrange(5):
        instruction = random.choice([0x4C, 0x6C, 0x68, 0x5C, 0x7C, 0x4D, 0x44, random.randrange(256)])
        length = random.choice([0, 1, 2, 4, 8, random.randrange(40)])
        address = BASE + random.choice([0, 5, SIZE - length, SIZE - 1, random.randrange(SIZE)])
        return [command(random, instruction, random.choice([0, 0, 0, 1, 0xFF]), address, random.randbytes(length), length)]
    image = program(random).spelled() if random.randrange(8) else random.randbytes(40)
    slot, zero = random.choice([0, 1, 2, 3, 3, 4]), int(random.randrange(20) == 0)
    made = [command(random, 0x6C, 0xFF, 0, image, len(image))] if random.randrange(4) else []
    made.append(command(random, 0x6C, 0xFF, 0x10000, bytes([slot, zero]) + len(image).to_bytes(2, "big"), 4))
    return [*made, command(random, 0x4C, 0xFF, 0x10000, b"", 8)]


def read(data: bytes) -> Image | tuple[int, int]:
    """What a load of these bytes answers: each image may judge."""
    try:
        return parsed(data)
    except BadImage as fault:
        return 32 + fault.code, fault.slot


def at_a_bank(random: Random, seen: Counter[str]) -> None:
    """Packets of all kinds, at a node of one bank."""
    first, ports = program(random), 2
    one = World(first, MAPS, ports, read)
    other = OwnNode(0xFE, ports, [Bank(BASE, SIZE, ROOM, bytearray(SIZE))], MAPS, first)
    for _ in range(PACKETS):
        port = random.randrange(ports)
        for data in packets(random):
            is_whole, before = random.randrange(30) > 0, other.published
            wanted = one.judge(port, WorldPacket(data, is_whole))
            same_lines(f"nodes, {data.hex()}", [other.judge(port, Packet(data, is_whole))], [wanted])
            seen["discarded"] += "discard" in wanted
            seen["replies"] += wanted.endswith("EOP")
            seen["status 0"] += wanted[8:10] == "00"
            seen["loads"] += other.published > before
    same_lines("results", [result.hex() for result in other.results], [it.result.hex() for it in one.ports])
    same_lines("slots", [f"{number} {image.spelled().hex()}" for image, number in other.slots],
               [f"{number} {image.spelled().hex()}" for image, number in one.slots])
    same_lines("entries", other.journals(), one.journal())
    same_lines("cells", other.words(), one.words())
    if other.banks[0].memory != one.memory:
        same_lines("memory", [other.banks[0].memory.hex()], [one.memory.hex()])


def of_loads(random: Random, seen: Counter[str]) -> None:
    """Loads by themselves, of which some have no writes of the image: then what is staged is loaded."""
    first = program(random)
    one = OwnNode(0xFE, 2, [Bank(BASE, SIZE, ROOM, bytearray(SIZE))], MAPS, first)
    other = Node([Policy(first, None)], MAPS, 2)
    for _ in range(6):
        image, slot, port = program(random).spelled(), random.choice([0, 3, 3, 4]), random.randrange(2)
        whole = load_of(image, slot, Loader(port, 0x67, random.choice([0, 0x20])))
        for packet in whole if random.randrange(3) else whole[-2:]:
            status, _ = one.served(port, Packet(packet.data, packet.is_whole))
            same_lines("statuses of a load", [str(other.status_of(port, packet))], [str(status)])
        seen["loads by themselves"] += 1
        seen["other images in the slot"] += slot < 4 and one.slots[slot][1] == one.published and one.slots[slot][0].spelled() != image
        same_lines("results", [it.hex() for it in other.results], [it.hex() for it in one.results])
    same_lines("slots", [f"{number} {policy.image.spelled().hex()}" for policy, number in other.slots],
               [f"{number} {image.spelled().hex()}" for image, number in one.slots])


def check(random: Random, _: Room, seen: Counter[str]) -> None:
    at_a_bank(random, seen)
    of_loads(random, seen)


main(__doc__, check, RUNS, KINDS)
