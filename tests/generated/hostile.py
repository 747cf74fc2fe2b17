#!/usr/bin/env python3
"""Packets that are cut off, changed, or of any bytes: `judge`, `sim`, `live`, `trace` and `serve` answer each as a node does that was
written from docs/PROTOCOL.md alone."""
from __future__ import annotations

import sys
from collections import Counter
from collections.abc import Iterator
from pathlib import Path
from random import Random

sys.dont_write_bytecode = True
sys.path.insert(0, str(Path(__file__).resolve().parent.parent))
from generator import main, same_lines
from models.images import Image, assembled
from models.world import Packet, World
from packets import crc, header
from rmapctl import Differs, Room

# How many files of lines the gate makes, how many packets each has, and for how many ports.
FILES, PACKETS, PORTS = 40, 120, 3

# The program that says yes, and the one whose verdict is the key.
YES = assembled([".budget 2", "mov r0, 0", "exit"])
BY_KEY = assembled([".budget 2", "ldxb r0, [r1+3]", "exit"])

# A packet, and how often which answer comes: to its beginnings with each marker, to the whole with each marker, and to the whole
# with one bit changed, with each marker. By hand from docs/PROTOCOL.md.
ROWS = """\
a plain write|FE016C0067000000A00000000000109F0123456789ABCDEF101112131415161756|Short 32, 5 17, 7 17|0 1, 7 1|Protocol 16, Reply 2, HeaderCrc 238, 4 136, 7 136
a plain read|FE014C0067000100A0000000000010C9|Short 32|0 1, 7 1|Short 4, Protocol 16, Reply 2, HeaderCrc 234
a read-modify-write of length 3|FE015C0067000300A0000000000003C200000000|Short 32, 11 8|11 2|Short 2, Protocol 16, Reply 2, HeaderCrc 236, 11 64
a read with a reply address|FE014D000000050667000200A0000000000004BC|Short 40|0 1, 7 1|Short 2, Protocol 16, Reply 2, HeaderCrc 300
"""  # noqa: E501

# Worked packets: bytes, and the check that stands behind them.
CHECKS = """\
FE016C0067000000A0000000000010 9F, 0123456789ABCDEF1011121314151617 56, 67012C00FE0000 ED, FE014C0067000100A0000000000010 C9
67010C00FE000100000010 6D, 00000000000000000000000000000000 00, 67012C04FE0000 9E, 67012C0AFE0000 D2, 67012C05FE0000 12
67012C07FE0000 CB, FE015C0067000300A0000000000003 C2, 000000 00, 67011C0BFE000300000000 CB, FE015C0067000400A0000000000002 97
F03C EE, 67011C00FE000400000001 AC, 01 91, FE014D000000050667000200A0000000000004 BC, 67010D00FE000200000004 A0, 01234567 99
FE014D000000000067000200A0000000000004 61, FE01680067000800A0000000000002 BE, 1122 A3, 67012800FE0008 C5
FE01580067000700A0000000000000 7F, 67011802FE000700000000 4C, FE014C0067000901A0000000000010 95, 67010C0AFE000900000000 EA
FE016C00670005FF00010000000004 A1, 03000000 55, 67012C01FE0005 F7, FE014C00670006FF00010000000008 A6, 67010C00FE000600000008 A3
2100000000000000 CF, 67012C01FE0000 61
"""

DISCARDS = ["", "Short", "Protocol", "Reply", "HeaderCrc"]

# What the runs have to come to: each reason to discard, and each status.
KINDS = [*DISCARDS[1:], *map(str, [0, 1, 2, 3, 4, 5, 6, 7, 9, 10, 11, 12])]

# Instructions of commands, with each length of the reply address.
INSTRUCTIONS = [base + way for base in (0x4C, 0x48, 0x44, 0x6C, 0x68, 0x7C, 0x64, 0x5C, 0x58, 0x40, 0x8C, 0xEC) for way in range(4)]


def worked_checks(_: Room) -> Iterator[str | None]:
    """The check here, which the node here is made of, is that of worked packets."""
    for row in CHECKS.replace("\n", ", ").removesuffix(", ").split(", "):
        digits, wanted = row.split()
        found = f"{crc(bytes.fromhex(digits)):02X}"
        yield None if found == wanted else f"the check of {digits} is {found} and not {wanted}"


def answer(world: World, port: int, packet: Packet) -> tuple[str, str, list[str]]:
    """What becomes of a packet: the name of its discard or its status, the line of `judge`, and those of `sim` behind the take."""
    taken = world.take(port, packet)
    if taken.startswith("discard"):
        return DISCARDS[int(taken.split()[1])], f"{port} {taken}", [taken]
    came = [taken, world.end(port)] if taken.startswith("taken") else [taken]
    _, status, reply = came[-1].split()
    return status, f"{port} -" if reply == "-" else f"{port} {reply} EOP", came


def both_ends(packets: list[bytes]) -> list[Packet]:
    return [Packet(data, is_whole) for data in packets for is_whole in (True, False)]


def groups(data: bytes) -> list[list[Packet]]:
    """The beginnings of a packet, the whole, and the whole with each bit changed."""
    changed = [bytes([*data[:place], data[place] ^ 1 << bit, *data[place + 1:]]) for place in range(len(data)) for bit in range(8)]
    return [both_ends([data[:size] for size in range(len(data))]), both_ends([data]), both_ends(changed)]


def changed_packets(room: Room) -> Iterator[str | None]:
    """The packets of the rows, cut off and changed."""
    for row in ROWS.splitlines():
        name, digits, *wanted = row.split("|")
        for packets, counts in zip(groups(bytes.fromhex(digits)), wanted):
            yield changed_group(room, name, packets, counts)


def changed_group(room: Room, name: str, packets: list[Packet], wanted: str) -> str | None:
    """What differs in a group of packets."""
    world = World(YES, [], 1)
    answers = [answer(world, 0, packet) for packet in packets]
    counts = Counter(answered for answered, _, _ in answers)
    found = ", ".join(f"{kind} {counts[kind]}" for kind in KINDS if counts[kind])
    came = room.printed("judge", "-", given="".join(f"{packet.line(0)}\n" for packet in packets))
    try:
        same_lines(name, came, [line for _, line, _ in answers])
    except Differs as error:
        return str(error)
    return None if found == wanted else f"{name}: {found}\nwanted: {wanted}"


def command(random: Random) -> bytes:
    """A command whose checks are right."""
    instruction = random.choice(INSTRUCTIONS)
    length = random.choice([0, 1, 2, 3, 4, 8, 16, random.randrange(60), 1024, 1025, 4096, 4097])
    extended = random.choice([0, 0, 0, 0, 1, 0xFF, 0xFF])
    near = [0, 0xFFF0 - length, 0x10000 - length, 0x10000, random.randrange(0x100)]
    window = [0, 0x3FFF, 0x4000 - length, 0x4000, 0x10000, 0x10001]
    address = random.choice([0xA0000000 + it for it in near] + [0x9FFFFFFF] if extended == 0 else window) % 2**32
    head = header(instruction, address, length, key=random.choice([0, 0, 0, 0, 3, 10, 12, 1, 255]), extended=extended,
                  initiator=random.randrange(256), transaction=random.randrange(65536), target=random.choice([0xFE] * 9 + [0xFD]))
    way = 4 * (instruction % 4)
    head = head[:4] + bytes(random.choice([0, 0, 5, 255]) for _ in range(way)) + head[4:]
    data = random.randbytes(length) if instruction & 0x20 or instruction // 4 % 16 == 7 else None
    return head + bytes([crc(head)]) + (data + bytes([crc(data)]) if data is not None else b"")


def hostile(random: Random) -> Packet:
    """A command, in which now and then something is wrong."""
    data = command(random)
    kind = random.randrange(10)
    if kind == 0:
        data = data[:random.randrange(len(data) + 1)]
    elif kind == 1:
        place = random.randrange(min(len(data), 40))
        data = bytes([*data[:place], data[place] ^ 1 << random.randrange(8), *data[place + 1:]])
    elif kind == 2:
        data += random.randbytes(1 + random.randrange(3))
    elif kind == 3:
        data = random.randbytes(random.randrange(40))
    return Packet(data[:4200], random.randrange(12) != 0)


def sent(random: Random, ports: int) -> list[tuple[int, Packet]]:
    return [(random.randrange(ports), hostile(random)) for _ in range(PACKETS)]


def events(port: int, packet: Packet, came: list[str]) -> list[str]:
    """The events that bring a packet to its end."""
    lines = [f"take {packet.line(port)}"]
    if len(came) > 1:
        lines.append(f"{'publish' if packet.place() == 'control' else 'effect'} {port}")
    return lines


def check_node(random: Random, room: Room, seen: Counter[str], image: Image) -> None:
    """Packets for a node of several ports."""
    packets, world = sent(random, PORTS), World(image, [], PORTS)
    answers = [answer(world, port, packet) for port, packet in packets]
    seen.update(answered for answered, _, _ in answers)
    room.put("lines", "".join(f"{packet.line(port)}\n" for port, packet in packets))
    room.put("events", "".join(f"{line}\n" for it, (_, _, came) in zip(packets, answers) for line in events(*it, came)))
    node = ["--image", "image", "--ports", str(PORTS)]
    judged = [line for _, line, _ in answers]
    same_lines("judge", room.printed("judge", "lines", *node), judged)
    same_lines("sim", room.printed("sim", "events", *node), [line for _, _, came in answers for line in came])
    traced = room.printed("trace", "lines", *node).splitlines()
    same_lines("trace", [line for line in traced if line[0] != " " and " taken " not in line], judged)
    same_lines("live", room.printed("live", *node, given=room.content("lines") or b""), judged + world.journal())


def check_port(random: Random, room: Room, image: Image) -> None:
    """Packets for a node of one port, in a thread of its own."""
    packets, world = sent(random, 1), World(image, [], 1)
    answers = [answer(world, port, packet) for port, packet in packets]
    room.put("lines", "".join(f"{packet.line(port)}\n" for port, packet in packets))
    replies = [line for _, line, _ in answers if line.endswith(" EOP")]
    discarded = sum(answered in DISCARDS for answered, _, _ in answers)
    same_lines("serve", room.printed("serve", "lines", "--image", "image"), [*replies, f"discarded {discarded} lost 0"])


def check(random: Random, room: Room, seen: Counter[str]) -> None:
    verdict = random.choice([0, 3, 10, 12, 255])
    image = random.choice([BY_KEY, BY_KEY, assembled([".budget 2", f"mov r0, {verdict}", "exit"])])
    room.put("image", image.spelled())
    check_node(random, room, seen, image)
    check_port(random, room, image)


main(__doc__, check, FILES, KINDS, [worked_checks, changed_packets])
