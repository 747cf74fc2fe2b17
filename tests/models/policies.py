"""Random rules and texts of policy tables, and commands that they are asked of."""
from __future__ import annotations

from dataclasses import replace
from random import Random

from models.tables import PortRule, Rule
from models.world import Packet
from packets import crc, header

# The maps: how many cells each has.
CELLS = [1, 4, 40]
MAPS = [(cells, False) for cells in CELLS]

# Keys and initiators, of headers and of rules; first addresses of headers; and ends of ranges, some the last of 31 and of 32 bits.
BYTES = [0x00, 0x20, 0xFF]
ADDRESSES = [0xA0000000, 0xA0000010, 0xA0000FF0, 0xA000FFF0]
ENDS = [0, 0x10, 0x10000, 0x7FFFFFFF, 0x80000000, 0xA0000000, 0xA000000F, 0xA0000010, 0xA0000FFF, 0xA000FFFF, 0xFFFFFFFF]


def rule(random: Random) -> Rule:
    fields = [None if random.randrange(3) else random.choice(BYTES) for _ in range(3)]
    low, high = sorted(random.choices(ENDS, k=2)) if random.randrange(2) else (0, 0xFFFFFFFF)
    index = random.randrange(3)
    quota = (index, random.randrange(CELLS[index]), random.choice([0, 1, 3, 6, 0x7FFFFFFF])) if random.randrange(2) else None
    return Rule(random.choice(["read", "write", "rmw", "any", "any"]), fields, low, high, quota, random.choice([0, 3, 10, 12]))


def comment(random: Random) -> str:
    return random.choice(["", "", ";", " ; port 3", " ;; any * * *", "   "])


def port_table(random: Random, count: int, ports: list[int]) -> tuple[list[PortRule], str]:
    """Rules of which some ask one of these ports, and a text of them of version 2."""
    names: dict[str, tuple[int, int]] = {}
    rules, lines = [], [f".version 2{comment(random)}\n"]
    for _ in range(count):
        while random.randrange(3) == 0:
            lines.append(random.choice(["\n", "  \n", "; read 20 * 00\n", ";\n"]))
        if random.randrange(3) == 0:
            name = random.choice(["a", "B_2", "frames", "abcdefg1", "deadbeef_", "port"]) + str(len(names))
            low, high = sorted(random.choices(ENDS, k=2))
            names[name] = (low, high)
            lines.append(f" .range  {name} {low:08x} {high:08X}{comment(random)}\n")
        own = rule(random)
        chosen = random.choice(list(names)) if names and random.randrange(2) else None
        if chosen is not None:
            own = replace(own, low=names[chosen][0], high=names[chosen][1])
        port = random.choice([None, None, *ports])
        rules.append(PortRule(own, port, chosen))
        lines.append(rules[-1].text(comment(random)))
    text = "".join(lines)
    return rules, text[:-1] if random.randrange(4) == 0 else text


def command(random: Random) -> Packet:
    """A command that is judged."""
    instruction = random.choice([0x4C, 0x48, 0x6C, 0x68, 0x5C, 0x7C, 0x4D])
    length = random.choice([0, 2, 4, 8]) if instruction == 0x5C else random.choice([0, 1, 2, 16])
    extended = random.choice([0, 0, 0, 0xFF])
    address = random.choice(ADDRESSES if extended == 0 else [0, 0x10, 0x1000])
    head = header(instruction, address, length, key=random.choice(BYTES), initiator=random.choice(BYTES), extended=extended)
    head = head[:4] + bytes(4 * (instruction % 4)) + head[4:]
    carries = instruction & 0x20 or instruction == 0x5C
    return Packet(head + bytes([crc(head)]) + (bytes(length + 1) if carries else b""))
