"""Images, from docs/BPF.md alone: their bytes, their faults, their weight, and the form of their programs."""
from __future__ import annotations

from dataclasses import dataclass, field

from models.insns import (ALU, ALU32, ALU64, BYTES, CALL, EXIT, FROM_REGISTER, JMP, JMP32, JUMPS, LD, LDMAP, LDX, ST, STX, TWO_SLOTS,
                          Insn, read, signed)

MAX_LOOPS, MAX_SLOTS, MAX_BUDGET, MAX_BOUND = 8, 512, 65_536, 4_096

# The bytes of the header, of a loop and of a slot.
HEADER, LOOP, SLOT = 16, 8, 8

# The largest register, and that of the frame.
FRAME = 10


@dataclass(frozen=True)
class Loop:
    """A declared loop: its first and its last slot, its bound and its counter."""
    head: int
    back: int
    bound: int
    register: int

    def holds(self, slot: int) -> bool:
        return self.head <= slot <= self.back


class BadImage(Exception):
    """The bytes are no image: the number of the fault, its slot, and of an instruction that is none the number of that fault."""

    def __init__(self, code: int, slot: int = 0, of_insn: int = 0):
        super().__init__(code, slot, of_insn)
        self.code, self.slot, self.of_insn = code, slot, of_insn


@dataclass
class Image:
    """An image: the instructions by the slots at which they begin."""
    version: int
    budget: int
    insns: list[Insn]
    loops: list[Loop] = field(default_factory=list)

    def __post_init__(self) -> None:
        self.at: dict[int, Insn] = {}
        slot = 0
        for insn in self.insns:
            self.at[slot] = insn
            slot += insn.slots
        self.slots = slot

    def spelled(self) -> bytes:
        """The bytes of the image."""
        head = b"BPFA" + bytes([self.version, len(self.loops)]) + self.slots.to_bytes(2, "little")
        head += self.budget.to_bytes(4, "little") + bytes(4)
        for it in self.loops:
            head += b"".join(part.to_bytes(2, "little") for part in (it.head, it.back, it.bound)) + bytes([it.register, 0])
        return head + b"".join(insn.spelled() for insn in self.insns)

    @property
    def weight(self) -> int:
        """The sum over the instructions of the product of the bounds of the loops that hold each."""
        total = 0
        for slot in self.at:
            product = 1
            for it in self.loops:
                product *= it.bound if it.holds(slot) else 1
            total += product
        return min(total, 2**64 - 1)


def decoded(slot: bytes, following: bytes | None) -> Insn:
    """The instruction that a slot and the next one spell; BadImage(7) where they spell none."""
    opcode, registers = slot[0], slot[1]
    insn = Insn(opcode, registers & 15, registers >> 4, signed(int.from_bytes(slot[2:4], "little"), 16),
                signed(int.from_bytes(slot[4:8], "little"), 32))
    if not is_opcode(opcode):
        raise BadImage(7, 0, 1)
    if any(number > FRAME for number in registers_of(insn)):
        raise BadImage(7, 0, 2)
    if opcode == TWO_SLOTS:
        return decoded_pair(insn, following)
    if not has_fields(insn):
        raise BadImage(7, 0, 3)
    return insn


def is_opcode(opcode: int) -> bool:
    """Whether an instruction has this opcode."""
    kind, code, mode = opcode & 7, opcode >> 4, opcode & 0xE0
    if kind in (ALU32, ALU64):
        if code in (8, 13):
            return not opcode & FROM_REGISTER or (code == 13 and kind == ALU32)
        return code in ALU.values()
    if kind in (JMP, JMP32):
        if code == 0:
            return not opcode & FROM_REGISTER
        return code in JUMPS.values() or opcode in (CALL, EXIT)
    if kind == LDX:
        return mode == 0x60 or (mode == 0x80 and opcode & 0x18 != 0x18)
    return opcode == TWO_SLOTS if kind == LD else mode == 0x60


def registers_of(insn: Insn) -> list[int]:
    """The fields that are used as registers."""
    if insn.opcode in (CALL, EXIT) or (insn.kind in (JMP, JMP32) and insn.code == 0):
        return []
    if insn.opcode == TWO_SLOTS or insn.kind == ST:
        return [insn.dst]
    if insn.kind in (LDX, STX):
        return [insn.dst, insn.src]
    return [insn.dst, insn.src] if insn.is_from_register and insn.code != 13 else [insn.dst]


def decoded_pair(insn: Insn, following: bytes | None) -> Insn:
    """The instruction of two slots."""
    if following is None:
        raise BadImage(7, 0, 4)
    high = signed(int.from_bytes(following[4:], "little"), 32)
    if any(following[:4]) or insn.offset or insn.src > 6 or (high and insn.src in (1, 3, 4, LDMAP)):
        raise BadImage(7, 0, 3)
    return Insn(insn.opcode, insn.dst, insn.src, 0, insn.imm, high)


def has_fields(insn: Insn) -> bool:
    """Whether each field that is not used is zero, and the others are of the instruction."""
    if insn.kind in (ALU32, ALU64):
        return has_alu_fields(insn)
    if insn.kind in (LDX, STX):
        return insn.imm == 0
    if insn.kind == ST:
        return insn.src == 0
    if insn.opcode == CALL:
        return insn.dst == insn.offset == 0 and insn.src <= 2
    if insn.opcode == EXIT:
        return insn.dst == insn.src == insn.offset == insn.imm == 0
    if insn.code == 0:
        return insn.dst == insn.src == 0 and (insn.imm if insn.kind == JMP else insn.offset) == 0
    return (insn.imm if insn.is_from_register else insn.src) == 0


def has_alu_fields(insn: Insn) -> bool:
    """The same of arithmetic."""
    if insn.code == 13:
        return insn.src == insn.offset == 0 and insn.imm in (16, 32, 64)
    if insn.code == ALU["neg"]:
        return insn.src == insn.offset == insn.imm == 0
    if insn.code in (ALU["div"], ALU["mod"]):
        offsets = [0, 1]
    elif insn.code == ALU["mov"] and insn.is_from_register:
        offsets = [0, 8, 16, 32] if insn.kind == ALU64 else [0, 8, 16]
    else:
        offsets = [0]
    return insn.offset in offsets and (insn.imm if insn.is_from_register else insn.src) == 0


def number(data: bytes, place: int, size: int) -> int:
    return int.from_bytes(data[place:place + size], "little")


def parsed(data: bytes) -> Image:
    """The image of some bytes; BadImage with the first fault where they are none."""
    if data[:4] != b"BPFA":
        raise BadImage(1)
    if data[4:5] not in (b"\1", b"\2"):
        raise BadImage(2)
    if len(data) < HEADER:
        raise BadImage(3)
    loops, slots, budget = data[5], number(data, 6, 2), number(data, 8, 4)
    if loops > MAX_LOOPS or not 1 <= slots <= MAX_SLOTS or any(data[12:HEADER]):
        raise BadImage(4)
    if not 1 <= budget <= MAX_BUDGET:
        raise BadImage(5)
    if len(data) != HEADER + LOOP * loops + SLOT * slots:
        raise BadImage(3)
    found = parsed_loops(data[HEADER:HEADER + LOOP * loops], slots)
    return Image(data[4], budget, parsed_insns(data[HEADER + LOOP * loops:]), found)


def parsed_loops(data: bytes, slots: int) -> list[Loop]:
    loops: list[Loop] = []
    for begin in range(0, len(data), LOOP):
        it = Loop(number(data, begin, 2), number(data, begin + 2, 2), number(data, begin + 4, 2), data[begin + 6])
        is_good = it.head < it.back < slots and 1 <= it.bound <= MAX_BOUND and it.register < FRAME and data[begin + 7] == 0
        if not is_good or (loops and loops[-1].head >= it.head):
            raise BadImage(6)
        loops.append(it)
    return loops


def parsed_insns(data: bytes) -> list[Insn]:
    slots = [data[begin:begin + SLOT] for begin in range(0, len(data), SLOT)]
    insns: list[Insn] = []
    slot = 0
    while slot < len(slots):
        try:
            insns.append(decoded(slots[slot], slots[slot + 1] if slot + 1 < len(slots) else None))
        except BadImage as fault:
            raise BadImage(7, slot, fault.of_insn) from None
        slot += insns[-1].slots
    return insns


def assembled(lines: list[str]) -> Image:
    """The image of lines, each of which is a directive, a label or an instruction that has no fault."""
    version, budget, loops, labels, insns = 1, 1, [], {}, []
    slot = 0
    for line in filter(None, map(str.strip, lines)):
        word, _, rest = line.partition(" ")
        if word == ".version":
            version = int(rest)
        elif word == ".budget":
            budget = int(rest)
        elif word == ".loop":
            loops.append([part.strip() for part in rest.split(",")])
        elif line.endswith(":"):
            labels[line[:-1]] = slot
        else:
            insns.append((slot, line))
            slot += 2 if word in ("lddw", "ldmap") else 1
    found = [Loop(slot_named(head, labels), slot_named(back, labels), int(bound), int(register[1:]))
             for head, back, bound, register in loops]
    return Image(version, budget, [read(line, at, labels) for at, line in insns], sorted(found, key=lambda it: it.head))


def slot_named(word: str, labels: dict[str, int]) -> int:
    return int(word) if word.isdigit() else labels[word]


def target(slot: int, insn: Insn) -> int | None:
    """The slot to which a jump leads."""
    if insn.kind not in (JMP, JMP32) or insn.opcode in (CALL, EXIT):
        return None
    return slot + 1 + (insn.imm if insn.kind == JMP32 and insn.code == 0 else insn.offset)


def written(insn: Insn) -> set[int]:
    """The registers that an instruction writes."""
    if insn.opcode == CALL:
        return set(range(6))
    return {insn.dst} if insn.kind in (LD, LDX, ALU32, ALU64) else set()


def form_fault(image: Image) -> tuple[int, int] | None:
    """The code and the slot of the first fault of a program's form, if it has one."""
    for slot, insn in image.at.items():
        if code := insn_fault(image, slot, insn):
            return code, slot
    last = max(image.at)
    if image.at[last].opcode != EXIT:
        return 14, last
    for it in image.loops:
        if not has_form(image, it):
            return 3, it.back
    return (15, 0) if image.weight > image.budget else None


def insn_fault(image: Image, slot: int, insn: Insn) -> int | None:
    """The code of the fault of an instruction for its form, if it has one."""
    if (insn.opcode == TWO_SLOTS and insn.src not in (0, LDMAP)) or (insn.opcode == CALL and insn.src != 0):
        return 16
    if insn.opcode == CALL and insn.imm not in ((1, 2) if image.version == 1 else (1, 2, 3)):
        return 13
    if FRAME in written(insn):
        return 10
    leads = target(slot, insn)
    if leads is not None and leads not in image.at:
        return 1
    if leads is not None and leads <= slot and not any((it.head, it.back) == (leads, slot) for it in image.loops):
        return 2
    return None


def has_form(image: Image, loop: Loop) -> bool:
    """Whether a declared loop has its form."""
    back, down = image.at.get(loop.back), image.at.get(loop.back - 1)
    if back is None or down is None or (back.opcode, back.dst, back.imm) != (0x55, loop.register, 0):
        return False
    if target(loop.back, back) != loop.head or (down.opcode, down.dst, down.imm) != (0x07, loop.register, -1):
        return False
    for slot, insn in image.at.items():
        if loop.holds(slot) and slot != loop.back - 1 and loop.register in written(insn):
            return False
        leads = target(slot, insn)
        if leads == loop.back or (leads is not None and not loop.holds(slot) and loop.holds(leads) and leads != loop.head):
            return False
    return all(is_beside(loop, it) for it in image.loops if it != loop)


def is_beside(loop: Loop, other: Loop) -> bool:
    """Whether two loops of other heads are nested or apart."""
    first, second = sorted((loop, other), key=lambda it: it.head)
    return first.back < second.head or second.back < first.back


def access_size(insn: Insn) -> int:
    """How many bytes a load or a store has."""
    return BYTES[insn.opcode & 0x18]
