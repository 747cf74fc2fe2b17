"""The packets of loads, what a node at which policies judge answers to them, and whose loads a policy lets pass.

Written from docs/PROTOCOL.md (*Loads and slots*, *Places*), docs/POLICIES.md and docs/COMMANDS.md (*`rehearse`*, *`map`*) alone. What a
program comes to is answered by models/machine.py, and what a table decides by models/tables.py. No outcome of a packet or a load comes
from another model of a node."""
from __future__ import annotations

from collections.abc import Iterator
from typing import NamedTuple

from models.fields import Fields
from models.images import BadImage, Image, parsed
from models.machine import Machine, Map
from models.tables import PortRule, decide, rules_at
from packets import crc, header

# The most bytes of a part of an image, the bytes of the staging, and where control and result are.
PART, STAGING, CONTROL = 4096, 16_384, 0x10000

# The statuses of the verdicts that are not 10.
STATUS_OF_VERDICT = {0: 0, 3: 3, 12: 12}


class Policy(NamedTuple):
    """A policy: its image, and its rules if it is a table."""
    image: Image
    rules: list[PortRule] | None


class Loader(NamedTuple):
    """Who loads."""
    port: int
    initiator: int
    key: int


PLAIN = Loader(0, 0x67, 0)


def made(instruction: int, address: int, data: bytes, length: int, loader: Loader, transaction: int) -> Fields:
    """A command to the boot window."""
    head = header(instruction, address, length, key=loader.key, initiator=loader.initiator, transaction=transaction, extended=0xFF)
    return Fields(head + bytes([crc(head)]) + (data + bytes([crc(data)]) if instruction & 0x20 else b""))


def load_of(image: bytes, slot: int, loader: Loader, transaction: int = 0) -> list[Fields]:
    """The packets of a load: the writes of the parts, the control write, and the read of the load result."""
    parts = [image[begin:begin + PART] for begin in range(0, len(image), PART)]
    packets = [made(0x6C, PART * number, part, len(part), loader, transaction + number) for number, part in enumerate(parts)]
    asked = bytes([slot, 0]) + len(image).to_bytes(2, "big")
    packets.append(made(0x6C, CONTROL, asked, 4, loader, transaction + len(parts)))
    return packets + [made(0x4C, CONTROL, b"", 8, loader, transaction + len(parts) + 1)]


class Node:
    """A node at which policies judge, as far as loads ask it: each packet is a whole command to the boot window. Each image that is
    loaded may judge."""

    def __init__(self, policies: list[Policy], maps: list[Map], ports: int):
        self.known = {policy.image.spelled(): policy for policy in policies}
        self.maps, self.cells = maps, [[0] * count for count, _ in maps]
        self.slots = [(policies[0], 0)] * 4
        self.published, self.verdict = 0, 0
        self.staging = [bytearray(STAGING) for _ in range(ports)]
        self.results = [bytes(8) for _ in range(ports)]

    def status_of(self, port: int, packet: Fields) -> int:
        """The status with which a packet of a load ends; `verdict` is then what the program of slot 3 says of it."""
        self.verdict = verdict_on(self.slots[3][0], self.maps, self.cells, port, packet)
        status = STATUS_OF_VERDICT.get(self.verdict, 10)
        if status or not packet.has(0x20):
            return status
        data = packet.data[packet.begin:-1]
        if packet.address != CONTROL:
            self.staging[port][packet.address:packet.address + len(data)] = data
            return 0
        code, place = self.publish(port, data[0], data[1], int.from_bytes(data[2:], "big"))
        generation = 0 if code else self.published
        self.results[port] = bytes([code, 0]) + place.to_bytes(2, "big") + generation.to_bytes(4, "big")
        return 1 if code else 0

    def publish(self, port: int, slot: int, zero: int, size: int) -> tuple[int, int]:
        """The code and the place of a control write."""
        if zero or size > STAGING:
            return 71, 0
        if slot > 3:
            return 66, 0
        try:
            image = parsed(bytes(self.staging[port][:size]))
        except BadImage as fault:
            return 32 + fault.code, fault.slot
        self.published += 1
        self.slots[slot] = (self.known.get(image.spelled(), Policy(image, None)), self.published)
        return 0, 0

    def is_loaded(self, slot: int, image: bytes, before: int) -> bool:
        """Whether the program of a slot is that of the image, by a publish after so many."""
        policy, generation = self.slots[slot]
        return generation > before and policy.image.spelled() == image


def draws(told: int) -> int:
    """What a counter has after a ticket."""
    return (told + 1) % 2 ** 64


def cells_of(maps: list[Map], is_spent: bool) -> list[list[int]]:
    """Cells that nobody asked; or such that have each given 2^32 tickets, with the greatest number in each peak map."""
    return [[(2 ** 64 - 1 if is_peak else 2 ** 32) if is_spent else 0] * count for count, is_peak in maps]


def verdict_on(policy: Policy, maps: list[Map], cells: list[list[int]], port: int, packet: Fields) -> int:
    """The verdict of a policy on a packet, which draws its tickets of the cells."""

    def ask(helper: int, index: int, key: int, argument: int) -> int:
        told = cells[index][key]
        if helper == 2:
            cells[index][key] = draws(told)
        if helper == 3:
            told = cells[index][key] = max(told, argument)
        return told

    if policy.rules is not None:
        return decide(rules_at(policy.rules, port), packet, lambda index, key: ask(2, index, key, 0))
    run = Machine(policy.image, maps, packet.data[:4], packet.data[4:16], port).run(policy.image.budget)
    told = None
    while True:
        try:
            asked = next(run) if told is None else run.send(told)
        except StopIteration as end:
            return int(end.value)
        told = ask(*asked)


def lets_load(policy: Policy, maps: list[Map], image: bytes, loader: Loader, is_spent: bool) -> bool:
    """Whether a policy lets a whole load pass: each write, after the tickets of those before it."""
    cells = cells_of(maps, is_spent)
    verdicts = [verdict_on(policy, maps, cells, loader.port, packet) for packet in load_of(image, 3, loader)[:-1]]
    return not any(verdicts)


def values(rules: list[PortRule], field: int) -> Iterator[tuple[int, str]]:
    """The values of a field that rules name, and the least that none names, each with its text."""
    named = {own.rule.fields[field] for own in rules}
    least = min((byte for byte in range(256) if byte not in named), default=None)
    return ((byte, "*" if byte == least else f"{byte:02X}") for byte in range(256) if byte in named or byte == least)


def askers(policy: Policy) -> Iterator[tuple[tuple[int, str], tuple[int, str]]]:
    """Of whose loads a policy is asked: initiators and keys, each with its text."""
    if policy.rules is not None:
        keys = list(values(policy.rules, 0))
        return ((initiator, key) for initiator in values(policy.rules, 1) for key in keys)
    every = [(byte, f"{byte:02X}") for byte in range(256)]
    return iter([(it, every[0]) for it in every] + [(every[0x67], it) for it in every[1:]])


# When loads pass: of a load on cells that nobody asked, and of one on cells that are past every quota.
WHEN = {(True, True): "", (True, False): " until quotas are spent", (False, True): " only after quotas are spent"}


def open_to(policy: Policy, maps: list[Map], image: bytes, count: int, lead: str = "loads") -> Iterator[str]:
    """The lines of all whose loads a policy lets pass at a node of so many ports."""
    named = None if policy.rules is None else {own.port for own in policy.rules}
    for (initiator, initiator_text), (key, key_text) in askers(policy):
        answers: dict[int | None, tuple[bool, bool]] = {}

        def passes(port: int, initiator: int = initiator, key: int = key, answers: dict[int | None, tuple[bool, bool]] = answers
                   ) -> tuple[bool, bool]:
            # (ports that no rule names are alike)
            alike = port if named is None or port in named else None
            if alike not in answers:
                loader = Loader(port, initiator, key)
                answers[alike] = (lets_load(policy, maps, image, loader, False), lets_load(policy, maps, image, loader, True))
            return answers[alike]

        ports = [passes(port) for port in range(count)]
        for kind, words in WHEN.items():
            first = 0
            for port, answer in enumerate(ports):
                if answer == kind and ports[port + 1:port + 2] != [kind]:
                    yield f"{lead} by port {first}-{port} initiator {initiator_text} key {key_text}{words}"
                if answer != kind:
                    first = port + 1
