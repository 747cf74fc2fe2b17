"""Runs of accepted programs at a node: what `live` and `trace` print, and what the machine of docs/BPF.md comes to."""
from __future__ import annotations

from collections.abc import Iterator
from contextlib import contextmanager
from random import Random

from generator import same_lines
from models.images import Image
from models.machine import Map, Trap
from models.world import Packet, World
from packets import crc, header
from rmapctl import Differs, Room


def read_of(random: Random) -> Packet:
    """A command that is judged: its header is random as far as it may be."""
    instruction = random.choice([0x4C, 0x48, 0x4D, 0x6C, 0x68, 0x5C])
    address = random.choice([0xA0000000, 0xA0000000 + random.randrange(0xFF00)])
    length = random.choice([0, 2, 4, 8]) if instruction == 0x5C else random.randrange(200)
    head = header(instruction, address, length, key=random.randrange(256), initiator=random.randrange(256),
                  transaction=random.randrange(65536))
    head = head[:4] + random.randbytes(4 * (instruction % 4)) + head[4:]
    data = b"" if instruction & 0x20 == 0 and instruction != 0x5C else bytes(length + 1)
    return Packet(head + bytes([crc(head)]) + data)


# The plain read: sixteen bytes at the bank's first address.
PLAIN_READ = Packet(bytes.fromhex("FE014C0067000100A0000000000010C9"))


def words_of(maps: list[Map], ports: int) -> list[str]:
    """The words for a node whose program is the file `image`."""
    sizes = ",".join(f"{cells}{'p' * is_peak}" for cells, is_peak in maps)
    return ["--image", "image", "--ports", str(ports), *(["--maps", sizes] if maps else [])]


@contextmanager
def safely(image: Image) -> Iterator[None]:
    """Whatever is run there was accepted, so a trap differs."""
    try:
        yield
    except Trap as trap:
        raise Differs(f"accepted, and a run traps: {trap}\n{image.spelled().hex()}") from None


def compare_runs(room: Room, image: Image, maps: list[Map], sent: list[tuple[int, Packet]], ports: int = 32) -> bool:
    """Whether the image is accepted. Then packets are judged in order: replies, verdicts and cells are those of the machine."""
    room.put("image", image.spelled())
    given = "".join(f"{packet.line(port)}\n" for port, packet in sent)
    done = room.job("live", *words_of(maps, ports), given=given + "cells\n")
    if done.status == 1 and done.out.startswith(b"refused V"):
        return False
    world = World(image, maps, ports)
    with safely(image):
        wanted = [world.judge(port, packet) for port, packet in sent]
    same_lines("live", (done.out + done.err).decode(), wanted + world.words() + world.journal())
    return True


def compare_steps(room: Room, image: Image, maps: list[Map], sent: list[tuple[int, Packet]], ports: int = 32) -> int:
    """The same, step by step: how many steps there were."""
    world, wanted = World(image, maps, ports, is_traced=True), []
    for port, packet in sent:
        with safely(image):
            taken = world.take(port, packet)
            machine = world.ports[port].open.machine  # type: ignore[union-attr]
            reply = world.end(port).split()[2]
        wanted += [f"{port} {taken.replace('taken', f'taken slot {packet.slot()} generation')}", *machine.trace,
                   f"{port} -" if reply == "-" else f"{port} {reply} EOP"]
    given = "".join(f"{packet.line(port)}\n" for port, packet in sent)
    came = room.printed("trace", "-", *words_of(maps, ports), given=given).splitlines()
    same_lines("trace", [line.rstrip() for line in came], [line.rstrip() for line in wanted])
    return sum(line.startswith("    ") for line in wanted)
