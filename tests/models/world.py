"""A node of one bank, event by event and packet by packet: what it prints.

Written from docs/PROTOCOL.md and docs/COMMANDS.md (*`sim`*, *`judge`*) alone. What a program comes to is answered by models/machine.py.
Its bank has 65,536 bytes from A0000000 on. What becomes of an image that is loaded is given, since the verifier is no part of it.
"""
from __future__ import annotations

from collections.abc import Callable, Generator
from dataclasses import dataclass, field

from models.fields import Fields
from models.images import Image
from models.machine import Machine, Map, Question
from packets import crc

ADDRESS, BASE, SIZE, ROOM = 0xFE, 0xA0000000, 65_536, 1024
STAGING, CONTROL = 0x4000, 0x10000

# The bits of an instruction.
WRITE, VERIFY, REPLY, INCREMENT = 0x20, 0x10, 0x08, 0x04
MODIFY = 7

# What a load answers: the code and the place of a refusal, or the image.
Loaded = Callable[[bytes], Image | tuple[int, int]]


def no_image(_: bytes) -> tuple[int, int]:
    """The answer to a load of bytes that are no image."""
    return 33, 0


class Packet(Fields):
    """A packet: its bytes, and whether it ended as it should."""

    def discard(self) -> int | None:
        """Why it is no command: 1 short, 2 another protocol, 3 a reply, 4 a wrong header check."""
        data = self.data
        if len(data) < 3:
            return 1
        if data[1] != 1:
            return 2
        if data[2] < 64:
            return 3
        if len(data) < self.begin:
            return 1
        return None if crc(data[:self.begin - 1]) == data[self.begin - 1] else 4

    def lies(self, base: int, size: int) -> bool:
        """Whether the bytes of the command lie in a window."""
        data = self.length if self.has(INCREMENT) else 0
        return base <= self.address < base + size and self.address + data <= base + size

    def place(self) -> str | None:
        """What the command is for: `bank`, `staging`, `result` or `control`; None where the place is not allowed."""
        if self.extended == 0:
            return "bank" if self.lies(BASE, SIZE) else None
        if self.extended != 0xFF:
            return None
        if self.address < STAGING:
            return "staging" if self.lies(0, STAGING) else None
        if self.address == CONTROL and self.has(INCREMENT):
            if not self.instruction & (WRITE | VERIFY) and self.length == 8:
                return "result"
            if self.has(WRITE) and self.length == 4:
                return "control"
        return None

    def header_status(self) -> int | None:
        """The status that the header decides, if it does."""
        if self.instruction // 64 != 1 or self.code in (0, 1, 4, 5, 6):
            return 2
        if self.data[0] != ADDRESS:
            return 12
        if self.code == MODIFY and self.length not in (0, 2, 4, 6, 8):
            return 11
        if self.has(VERIFY) and self.length > 1024:
            return 9
        return 10 if self.length > 4096 or self.place() is None else None

    def body_status(self) -> int:
        """The status of the body."""
        wanted = self.length + 1 if self.has(WRITE) or self.code == MODIFY else 0
        body = self.data[self.begin:]
        if not self.is_whole:
            return 7
        if len(body) != wanted:
            return 5 if len(body) < wanted else 6
        return 4 if wanted and crc(body[:-1]) != body[-1] else 0

    def slot(self) -> int:
        """The slot whose program judges it."""
        if self.place() != "bank":
            return 3
        return 1 if self.has(WRITE) else 2 if self.code == MODIFY else 0

    def reply(self, status: int, data: bytes = b"") -> str:
        """The reply with a status in upper case, or `-` where none is due."""
        if not self.has(REPLY):
            return "-"
        way = self.data[4:4 + self.way]
        path = way.lstrip(b"\0") or way[:1]
        head = bytes([self.field(4, 1), 1, self.instruction % 64, status, self.data[0]]) + self.field(5, 2).to_bytes(2, "big")
        if not self.has(WRITE):
            head += len(data).to_bytes(4, "big")
        head += bytes([crc(head)])
        tail = b"" if self.has(WRITE) else data + bytes([crc(data)])
        return (path + head + tail).hex().upper()


@dataclass
class Open:
    """A command that is open at a port: its run, and what the run asks or came to."""
    packet: Packet
    generation: int
    machine: Machine
    run: Generator[Question, int, int]
    asked: Question | None = None
    verdict: int = 0

    def go_on(self, told: int | None = None) -> None:
        """Goes on to the next question or to the verdict."""
        try:
            self.asked = next(self.run) if told is None else self.run.send(told)
        except StopIteration as end:
            self.asked, self.verdict = None, end.value


@dataclass
class Port:
    """What a port has of its own."""
    staging: bytearray = field(default_factory=lambda: bytearray(STAGING))
    result: bytes = bytes(8)
    count: int = 0
    open: Open | None = None


class World:
    """A node: its memory, its cells, its programs and its ports."""

    def __init__(self, image: Image, maps: list[Map], ports: int, loaded: Loaded = no_image, is_traced: bool = False):
        self.maps, self.loaded, self.is_traced = maps, loaded, is_traced
        self.memory = bytearray(SIZE)
        self.cells = [[0] * cells for cells, _ in maps]
        self.slots = [(image, 0)] * 4
        self.published = 0
        self.ports = [Port() for _ in range(ports)]
        self.entries: list[str] = []

    def take(self, port: int, packet: Packet) -> str:
        """A port takes a packet."""
        it = self.ports[port]
        if it.open:
            return "refused"
        if (why := packet.discard()) is not None:
            return f"discard {why}"
        if (status := packet.header_status()) is not None:
            return f"answered {status} {packet.reply(status)}"
        image, generation = self.slots[packet.slot()]
        front, tail = packet.data[:4], packet.data[packet.begin - 12:packet.begin]
        machine = Machine(image, self.maps, front, tail, port, is_traced=self.is_traced)
        it.open = Open(packet, generation, machine, machine.run(image.budget))
        it.open.go_on()
        return f"taken {generation}"

    def tell(self, helper: int, port: int) -> str:
        """A port is told what its program asks: 1 `count`, 2 `ticket`, 3 `peak`."""
        it = self.ports[port].open
        if it is None or it.asked is None or it.asked.helper != helper:
            return "refused"
        cells = self.cells[it.asked.map]
        told = cells[it.asked.key]
        if helper == 2:
            cells[it.asked.key] += 1
        if helper == 3:
            told = cells[it.asked.key] = max(told, it.asked.argument)
        it.go_on(told)
        return f"told {told}"

    def effect(self, port: int, is_publish: bool = False) -> str:
        """The open command of a port ends; a control write by a publish."""
        it = self.ports[port].open
        if it is None or it.asked is not None or (it.packet.place() == "control") != is_publish:
            return "refused"
        self.ports[port].open = None
        status = {0: it.packet.body_status(), 3: 3, 12: 12}.get(it.verdict, 10)
        data = b""
        if it.packet.place() == "bank":
            status, data = self.at_bank(port, it, status)
        elif status == 0:
            status, data = self.at_window(port, it.packet)
        return f"done {status} {it.packet.reply(status, data)}"

    def at_bank(self, port: int, it: Open, status: int) -> tuple[int, bytes]:
        """The status and the data of a command at the bank, which leaves an entry while there is room."""
        if len(self.entries) == ROOM:
            return status or 1, b""
        digits = it.packet.line(port).split(" ", 1)[1]
        self.entries.append(f"{port} {self.ports[port].count} {it.generation} {it.verdict} {status} {digits}")
        self.ports[port].count += 1
        return status, done(self.memory, it.packet, it.packet.address - BASE) if status == 0 else b""

    def at_window(self, port: int, packet: Packet) -> tuple[int, bytes]:
        """The status and the data of a command at the boot window."""
        it = self.ports[port]
        if packet.place() == "staging":
            return 0, done(it.staging, packet, packet.address)
        if packet.place() == "result":
            return 0, it.result
        code, place = self.load(port, packet.data[packet.begin:-1])
        generation = self.published if code == 0 else 0
        it.result = bytes([code, 0]) + place.to_bytes(2, "big") + generation.to_bytes(4, "big")
        return int(code != 0), b""

    def load(self, port: int, control: bytes) -> tuple[int, int]:
        """The code and the place of a load."""
        length = int.from_bytes(control[2:], "big")
        if control[1] != 0 or length > STAGING:
            return 71, 0
        if control[0] > 3:
            return 66, 0
        answer = self.loaded(bytes(self.ports[port].staging[:length]))
        if not isinstance(answer, Image):
            return answer
        self.published += 1
        self.slots[control[0]] = (answer, self.published)
        return 0, 0

    def judge(self, port: int, packet: Packet) -> str:
        """What `judge` prints of a packet."""
        came = self.take(port, packet)
        if came.startswith("discard"):
            return f"{port} {came}"
        if came.startswith("taken"):
            came = self.end(port)
        reply = came.split(" ")[2]
        return f"{port} -" if reply == "-" else f"{port} {reply} EOP"

    def end(self, port: int) -> str:
        """The open command of a port is told whatever it asks, and ends."""
        it = self.ports[port].open
        assert it is not None
        while it.asked is not None:
            self.tell(it.asked.helper, port)
        return self.effect(port, it.packet.place() == "control")

    def journal(self) -> list[str]:
        """Hands the journal out, as `live` prints it."""
        entries, self.entries = self.entries, []
        return [f"journal {entry}" for entry in entries] + [f"journal {len(entries)} entries"]

    def words(self) -> list[str]:
        """The words of the cells, as `live` prints them."""
        lines = [" ".join(map(str, ["cells", index, *cells])) for index, cells in enumerate(self.cells)]
        return lines + [f"cells {len(lines)} maps"]


def done(memory: bytearray, packet: Packet, begin: int) -> bytes:
    """Carries a command out on the bytes of its window: the data of its reply."""
    step = 1 if packet.has(INCREMENT) else 0
    body = packet.data[packet.begin:-1]
    if packet.has(WRITE):
        for place, byte in enumerate(body):
            memory[begin + place * step] = byte
        return b""
    if packet.code != MODIFY:
        return bytes(memory[begin + place * step] for place in range(packet.length))
    half, old = packet.length // 2, bytearray()
    for place in range(half):
        at = begin + place * step
        old.append(memory[at])
        memory[at] = body[place] & body[half + place] | memory[at] & ~body[half + place]
    return bytes(old)
