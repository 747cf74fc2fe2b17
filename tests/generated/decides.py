#!/usr/bin/env python3
"""Random tables and packets: the verdict that `decide` tells of a packet is the status of its reply under the image of the table."""
import re
import sys
from collections import Counter
from pathlib import Path
from random import Random

sys.dont_write_bytecode = True
sys.path.insert(0, str(Path(__file__).resolve().parent.parent))
from generator import main
from packets import crc, header
from rmapctl import Differs, Room

# How many tables the gate makes, and on how many packets each decides.
TABLES, PACKETS = 300, 10

# Keys, initiators and extended addresses, of headers and of rules.
BYTES = [0x00, 0x20, 0xFF]

# First addresses of headers and ends of ranges.
ADDRESSES = [0, 0x10, 0xA0000000, 0xA0000010, 0xFFFFFFFF]

# The instruction of a command, its data length, and what stands behind its header.
COMMANDS = [(0x4C, 4, ""), (0x48, 1, ""), (0x6C, 0, "00"), (0x6C, 1, "0596"), (0x5C, 0, "00"), (0x58, 4, "")]

NODE = ["--maps", "1,4"]


def rule(random: Random) -> str:
    """A rule. Two cells are drawn from, with limits that are soon spent."""
    kind = random.choice(["read", "write", "rmw", "any", "any"])
    fields = ["*" if random.randrange(4) < 3 else f"{random.choice(BYTES):02X}" for _ in range(3)]
    low, high = sorted(random.choices(ADDRESSES, k=2)) if random.randrange(2) else (0, 0xFFFFFFFF)
    limit = random.randrange(6)
    quota = random.choice(["-", f"0:0:{limit}", f"1:3:{limit}"])
    return f"{kind} {' '.join(fields)} {low:08X} {high:08X} {quota} {random.choice([0, 3, 10, 12])}\n"


def packet(random: Random) -> str:
    """A line of a packet for one of two ports: a command whose body is right, and now and then a wrong header check."""
    instruction, length, body = random.choice(COMMANDS)
    head = header(instruction, random.choice(ADDRESSES), length, key=random.choice(BYTES), initiator=random.choice(BYTES),
                  transaction=7, extended=random.choice([0, 0, 0, 0x20, 0xFF]), target=random.choice([0xFE, 0xFE, 0xFE, 0x33]))
    check = crc(head) ^ (random.randrange(8) == 0)
    return f"{random.randrange(2)} {head.hex().upper()}{check:02X}{body} EOP\n"


def number_of(line: str) -> int:
    """The number in a line of `decide`: the verdict, or the status of the check that answers."""
    told = re.search(r" (?:verdict|answered) (\d+)[,:]?(?: |$)", line)
    if told is None:
        raise Differs(f"no line of decide: {line}")
    return int(told[1])


def compare(judged: list[str], decided: list[str]) -> int:
    """How many packets were judged or answered. Each has the number that `decide` tells as its status."""
    count = 0
    for line, other in zip(judged, decided):
        if "discard" in line:
            holds = line == other
        else:
            holds = int(line.split(" ")[1][6:8], 16) == number_of(other)
            count += 1
        if not holds:
            raise Differs(f"judge: {line}\ndecide: {other}")
    if len(judged) != len(decided):
        raise Differs(f"judge has {len(judged)} lines, decide {len(decided)}")
    return count


def check(random: Random, room: Room, seen: Counter[str]) -> None:
    room.put("table", "".join(rule(random) for _ in range(random.randrange(7))))
    room.put("lines", "".join(packet(random) for _ in range(PACKETS)))
    room.printed("policy", "table", "image", *NODE)
    judged = room.printed("judge", "lines", "--image", "image", "--ports", "2", *NODE)
    decided = room.printed("decide", "lines", "table", "--ports", "2", *NODE)
    told = [line for line in decided.splitlines() if not line.startswith(" ")]
    seen["packets that are judged or answered"] += compare(judged.splitlines(), told)


main(__doc__, check, TABLES, {"packets that are judged or answered": 2000})
