"""A node of several banks, as a node's file says it: what becomes of a packet, of a load and of an instrument's write.

Written from docs/PROTOCOL.md (packets, the order of checks, places, effects, replies, loads and slots), docs/LIVE.md (journals, `set`
and `cells`) and docs/COMMANDS.md (a node's file) alone. What a program comes to is answered by models/machine.py, and what image bytes
are by models/images.py. No outcome comes from another model of a node."""
from __future__ import annotations

from collections.abc import Iterable
from dataclasses import dataclass, field

from models.images import BadImage, Image, assembled, parsed
from models.machine import Machine, Map
from packets import crc

# The fields behind the reply address: where they begin in a header without one, and how many bytes they have.
INITIATOR, TRANSACTION, EXTENDED, PLACE, LENGTH = (4, 1), (5, 2), (7, 1), (8, 4), (12, 3)
HEADER = 16

# The bits of an instruction, and the command codes that are used: of a read, of a read-modify-write and of writes.
WRITE, VERIFY, REPLY, INCREMENT = 0x20, 0x10, 0x08, 0x04
READS, MODIFY, WRITES = (2, 3), 7, range(8, 16)

# The boot window: the bytes of the staging, where control and result are, and the extended address.
STAGING, CONTROL, WINDOW = 16_384, 0x10000, 0xFF

# The limits of a command, and the bytes of a part of an image.
MOST, MOST_VERIFIED, PART = 4096, 1024, 4096


@dataclass(frozen=True)
class Packet:
    """A packet: its bytes, and whether its marker is EOP."""
    data: bytes
    is_whole: bool = True

    def line(self, port: int) -> str:
        return " ".join([str(port), *([self.data.hex().upper()] if self.data else []), "EOP" if self.is_whole else "EEP"])

    @property
    def instruction(self) -> int:
        return self.data[2]

    @property
    def kind(self) -> int:
        """The packet type: 1 of a command."""
        return self.instruction >> 6

    @property
    def code(self) -> int:
        return self.instruction >> 2 & 15

    @property
    def way(self) -> int:
        """How many bytes the reply address has."""
        return (self.instruction & 3) * 4

    @property
    def begin(self) -> int:
        """Where the body begins."""
        return HEADER + self.way

    def has(self, bit: int) -> bool:
        return self.instruction & bit != 0

    def number(self, which: tuple[int, int]) -> int:
        at, size = which
        return int.from_bytes(self.data[self.way + at:][:size], "big")

    @property
    def extended(self) -> int:
        return self.number(EXTENDED)

    @property
    def address(self) -> int:
        return self.number(PLACE)

    @property
    def length(self) -> int:
        return self.number(LENGTH)

    @property
    def carries(self) -> bool:
        """Whether data come after the header."""
        return self.code == MODIFY or self.code in WRITES

    def discard(self) -> int | None:
        """Line 1 of the order of checks: the number of the reason, if the packet is discarded."""
        if len(self.data) < 3:
            return 1
        wrong = [(self.data[1] != 1, 2), (self.kind == 0, 3), (len(self.data) < self.begin, 1)]
        for holds, reason in wrong:
            if holds:
                return reason
        return 4 if crc(self.data[:self.begin]) else None

    def body_status(self) -> int:
        """Lines 8 and 9: the status of what follows the header."""
        body = self.data[self.begin:]
        wanted = self.length + 1 if self.carries else 0
        if not self.is_whole:
            return 7
        if len(body) < wanted:
            return 5
        if len(body) > wanted:
            return 6
        return 4 if crc(body) else 0

    def lies(self, base: int, size: int) -> bool:
        """Whether the place of the command is in these bytes."""
        end = self.address + (self.length if self.has(INCREMENT) else 0)
        return self.address in range(base, base + size) and end <= base + size

    def addresses(self, count: int) -> Iterable[int]:
        """The addresses of so many bytes."""
        return range(self.address, self.address + count) if self.has(INCREMENT) else [self.address] * count

    def reply(self, status: int, data: bytes = b"") -> str:
        """The reply in upper case, with its path, or `-` where none is wanted."""
        if not self.has(REPLY):
            return "-"
        address = self.data[4:4 + self.way]
        path = address[-1:] if not any(address) else address[next(at for at, byte in enumerate(address) if byte):]
        head = [self.number(INITIATOR), 1, self.instruction & 0x3F, status, self.data[0], *self.number(TRANSACTION).to_bytes(2, "big")]
        if not self.has(WRITE):
            head += [0, *len(data).to_bytes(3, "big")]
        checked = bytes([*head, crc(bytes(head))])
        return (path + checked + (b"" if self.has(WRITE) else data + bytes([crc(data)]))).hex().upper()


@dataclass
class Bank:
    """A bank: where it lies, how many entries its journal has room for, its memory, its entries, and the count of each port."""
    base: int
    size: int
    room: int
    memory: bytearray
    entries: list[str] = field(default_factory=list)
    counts: dict[int, int] = field(default_factory=dict)

    @property
    def is_full(self) -> bool:
        return len(self.entries) == self.room


def yes_image() -> Image:
    """The program that judges if a file names none is yes to all."""
    return assembled([".budget 2", "mov r0, 0", "exit"])


class OwnNode:
    """A node of that logical address, with that many ports, and those banks and maps; the program judges in all slots."""

    def __init__(self, address: int, ports: int, banks: list[Bank], maps: list[Map], program: Image):
        self.address, self.banks, self.maps = address, banks, maps
        self.cells = [[0] * cells for cells, _ in maps]
        self.slots = [(program, 0) for _ in range(4)]
        self.published = 0
        self.staging = [bytearray(STAGING) for _ in range(ports)]
        self.results = [bytes(8) for _ in range(ports)]

    # ---- the order of checks

    def place(self, packet: Packet) -> str | None:
        """What the command is for: `bank`, `staging`, `result` or `control`; None where its place is not allowed."""
        if packet.extended == WINDOW:
            return self.window(packet)
        if packet.extended >= len(self.banks):
            return None
        bank = self.banks[packet.extended]
        return "bank" if packet.lies(bank.base, bank.size) else None

    def window(self, packet: Packet) -> str | None:
        """The same of a command to the boot window."""
        if packet.lies(0, STAGING):
            return "staging"
        if packet.address == CONTROL and packet.has(INCREMENT):
            if packet.code in READS and packet.length == 8:
                return "result"
            if packet.code in WRITES and packet.length == 4:
                return "control"
        return None

    def header_status(self, packet: Packet) -> int | None:
        """Lines 2 to 6: the status that the header decides, if it does."""
        is_used = packet.code in READS or packet.carries
        lines = [
            (packet.kind != 1 or not is_used, 2),
            (packet.data[0] != self.address, 12),
            (packet.code == MODIFY and packet.length not in (0, 2, 4, 6, 8), 11),
            (packet.has(VERIFY) and packet.length > MOST_VERIFIED, 9),
            (packet.length > MOST or self.place(packet) is None, 10),
        ]
        return next((status for holds, status in lines if holds), None)

    def verdict(self, port: int, packet: Packet) -> tuple[int, int]:
        """Line 7: what the program of the command's slot says, and its generation."""
        if packet.extended == WINDOW:
            slot = 3
        else:
            slot = 0 if packet.code in READS else 2 if packet.code == MODIFY else 1
        image, generation = self.slots[slot]
        front, tail = packet.data[:4], packet.data[packet.begin - 12:packet.begin]
        run = Machine(image, self.maps, front, tail, port).run(image.budget)
        answer: int | None = None
        while True:
            try:
                asked = next(run) if answer is None else run.send(answer)
            except StopIteration as end:
                return int(end.value), generation
            answer = self.asked(asked.helper, asked.map, asked.key, asked.argument)

    def asked(self, helper: int, index: int, key: int, argument: int) -> int:
        """What a cell answers to a program: how many tickets were drawn, also with one more drawn then, or the greatest number."""
        cell = self.cells[index]
        if helper == 3:
            cell[key] = max(cell[key], argument)
        answer = cell[key]
        if helper == 2:
            cell[key] += 1
        return answer

    def served(self, port: int, packet: Packet) -> tuple[int, bytes]:
        """The status and the data of the reply to a command."""
        status = self.header_status(packet)
        if status is not None:
            return status, b""
        place = str(self.place(packet))
        verdict, generation = self.verdict(port, packet)
        status = packet.body_status() if verdict == 0 else verdict if verdict in (3, 12) else 10
        if place == "bank":
            return self.at_bank(port, packet, generation, verdict, status)
        return self.at_window(port, packet, place) if status == 0 else (status, b"")

    def judge(self, port: int, packet: Packet) -> str:
        """What `judge` prints of a packet."""
        reason = packet.discard()
        if reason is not None:
            return f"{port} discard {reason}"
        reply = packet.reply(*self.served(port, packet))
        return " ".join([str(port), reply, *(["EOP"] if reply != "-" else [])])

    # ---- effects

    def carried_out(self, memory: bytearray, base: int, packet: Packet) -> bytes:
        """Carries a command out on these bytes, of which the first has that address: the data of its reply."""
        body = packet.data[packet.begin:-1]
        if packet.code in READS:
            return bytes(memory[at - base] for at in packet.addresses(packet.length))
        if packet.code in WRITES:
            for at, byte in zip(packet.addresses(packet.length), body):
                memory[at - base] = byte
            return b""
        half = packet.length // 2
        places = [at - base for at in packet.addresses(half)]
        old = bytes(memory[at] for at in places)
        for at, byte, mask in zip(places, body[:half], body[half:]):
            memory[at] = (byte & mask) | (memory[at] & (0xFF - mask))
        return old

    def at_bank(self, port: int, packet: Packet, generation: int, verdict: int, status: int) -> tuple[int, bytes]:
        """The same of a command at a bank that was judged: it leaves an entry, if its journal has room."""
        bank = self.banks[packet.extended]
        if bank.is_full:
            return (1 if status == 0 else status), b""
        number = bank.counts.setdefault(port, 0)
        bank.counts[port] += 1
        words = [port, number, generation, verdict, status, *packet.line(port).split()[1:]]
        bank.entries.append(" ".join(map(str, words)))
        return status, (self.carried_out(bank.memory, bank.base, packet) if status == 0 else b"")

    def at_window(self, port: int, packet: Packet, place: str) -> tuple[int, bytes]:
        """The same of a command at the boot window of its port that its program lets pass, and whose body is right."""
        if place == "result":
            return 0, self.results[port]
        if place == "staging":
            return 0, self.carried_out(self.staging[port], 0, packet)
        slot, zero, high, low = packet.data[packet.begin:packet.begin + 4]
        code, at = self.loaded(port, slot, zero, 256 * high + low)
        generation = self.published if code == 0 else 0
        self.results[port] = bytes([code, 0, *at.to_bytes(2, "big"), *generation.to_bytes(4, "big")])
        return (0 if code == 0 else 1), b""

    def loaded(self, port: int, slot: int, zero: int, size: int) -> tuple[int, int]:
        """The code and the place of a control write. Each image that is loaded here may judge: the verifier is no part of it."""
        if zero != 0 or size > STAGING:
            return 71, 0
        if slot > 3:
            return 66, 0
        try:
            image = parsed(bytes(self.staging[port][:size]))
        except BadImage as fault:
            return 32 + fault.code, fault.slot
        self.published += 1
        self.slots[slot] = (image, self.published)
        return 0, 0

    # ---- what is asked beside packets

    def publish(self, slot: int, image: bytes) -> None:
        """Publishes a program before the first packet: what judges in a slot is the image of its last publish, with the number of that
        among all publishes as its generation. No packet comes in: stagings, load results, cells and journals stay."""
        self.published += 1
        self.slots[slot] = (parsed(image), self.published)

    def set(self, extended: int, address: int, data: bytes) -> list[str] | None:
        """What `live` prints of the write of an instrument; None if the bytes do not lie in a bank."""
        if extended not in range(len(self.banks)):
            return None
        bank = self.banks[extended]
        first, last = address - bank.base, address - bank.base + len(data)
        if first < 0 or first >= bank.size or last > bank.size:
            return None
        lines = [*self.journal_of(extended), f"set {len(data)}"]
        bank.memory[first:last] = data
        return lines

    def journal_of(self, number: int) -> list[str]:
        """Hands the journal of a bank out, as `live` prints it: with the line of the bank before it if there are several."""
        bank = self.banks[number]
        lines = [f"bank {number:02X} {bank.base:08X}"] if len(self.banks) > 1 else []
        lines += [f"journal {entry}" for entry in bank.entries]
        lines.append(f"journal {len(bank.entries)} entries")
        bank.entries = []
        return lines

    def journals(self, *, full: bool = False) -> list[str]:
        """Hands the journals out, bank by bank: each, or those that are full."""
        due = [number for number, bank in enumerate(self.banks) if not full or bank.is_full]
        return [line for number in due for line in self.journal_of(number)]

    def words(self) -> list[str]:
        """The words of the cells, as `live` prints them."""
        lines = [f"cells {index} {' '.join(map(str, cells))}" for index, cells in enumerate(self.cells)]
        return [*lines, f"cells {len(self.cells)} maps"]
