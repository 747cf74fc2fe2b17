"""Schedules: events at the ports of a node, in any order, and what each comes to."""
from __future__ import annotations

from collections import Counter
from collections.abc import Callable, Iterable, Iterator
from random import Random

from models.world import Packet, World

HELPERS = {1: "count", 2: "ticket", 3: "peak"}
NUMBERS = {name: number for number, name in HELPERS.items()}
KINDS = ["take", *NUMBERS, "effect", "publish"]

# An event as a line, and what it comes to.
Event = tuple[str, str]


def due(world: World, port: int) -> str:
    """The event that is due at a port."""
    it = world.ports[port].open
    if it is None:
        return "take"
    if it.asked is not None:
        return HELPERS[it.asked.helper]
    return "publish" if it.packet.place() == "control" else "effect"


def done(world: World, kind: str, port: int, packet: Packet) -> Event:
    """An event at a port, which takes this packet where it is a take, and what it comes to."""
    if kind == "take":
        return f"take {packet.line(port)}", world.take(port, packet)
    came = world.tell(NUMBERS[kind], port) if kind in NUMBERS else world.effect(port, kind == "publish")
    return f"{kind} {port}", came


def events(random: Random, world: World, count: int, packet_of: Callable[[Random], Packet], seen: Counter[str]) -> Iterator[Event]:
    """So many events: at each port the one that is due, or now and then any."""
    for _ in range(count):
        port = random.randrange(len(world.ports))
        kind = due(world, port) if random.randrange(5) else random.choice(KINDS)
        line, came = done(world, kind, port, packet_of(random))
        seen.update([came.split()[0], *([kind] if came.startswith("told") else [])])
        yield line, came


def ended(world: World, ports: Iterable[int], last: Packet) -> Iterator[Event]:
    """The events that end what is open at the ports, and then those of one more packet at the first."""
    ports = list(ports)
    for port in ports:
        while world.ports[port].open:
            yield done(world, due(world, port), port, last)
    yield done(world, "take", ports[0], last)
    while world.ports[ports[0]].open:
        yield done(world, due(world, ports[0]), ports[0], last)
