"""Tables of constants, which a program here has not: they are put at the far end of the stack before its first instruction."""
from __future__ import annotations

from typing import Iterator

from objects.elf import Object, Section, Symbol
from objects.insns import ADD, ALU, BY_REGISTER, FRAME, LDX, MOV, ST, STX, SUB, Insn
from objects.refusal import Refusal

STACK_BYTES = 512
ALIGN = 8
TO_STACK, ADD_NUMBER = MOV << 4 | BY_REGISTER | ALU, ADD << 4 | ALU
# The opcodes of stores of a number, of 8 bytes and of 4.
STORE_EIGHT, STORE_FOUR = 0x7A, 0x62

# What is to be done of a table: by the beginnings of the names that compilers give to those that they make of a `switch`.
OF_SWITCH = {"CSWTCH": "compile with -fno-tree-switch-conversion", "switch.table": "compile with -fno-jump-tables"}
UNROLL = "write `#pragma unroll` before the `for` that goes through it, or `if` or `switch`"


class Tables:
    """The tables that a function names, in the order in which it does, and where each begins."""

    def __init__(self, whole: Object):
        self.whole = whole
        self.bytes = bytearray()
        self.places: dict[tuple[int, int], int] = {}
        self.names: list[str] = []
        self.slot: int | None = None

    def place(self, section: Section, number: int, at: int, variable: Symbol | None, slot: int) -> int:
        """The byte of all tables at which the byte of a section is."""
        first, size = (variable.value, variable.size) if variable else (0, section.size)
        name = variable.name if variable else section.name
        if any(first <= it < first + size for it in self.whole.references(number)):
            raise Refusal(f"{name}, a table of pointers", "compile with -fno-jump-tables, or write numbers into it", slot)
        if (number, first) not in self.places:
            content = section.data[first:first + size]
            self.places[number, first] = len(self.bytes)
            self.bytes += content + bytes(-len(content) % ALIGN)
            self.names.append(name)
            self.slot = slot if self.slot is None else self.slot
            if len(self.bytes) > STACK_BYTES:
                raise self.too_great("", slot)
        return self.places[number, first] + at - first

    def too_great(self, beside: str, slot: int | None) -> Refusal:
        """The refusal of more bytes than there is room for."""
        instead = next((it for begun, it in OF_SWITCH.items() if self.names[-1].startswith(begun)), UNROLL)
        what = f"{' and '.join(self.names)}, constant data of {len(self.bytes)} bytes{beside}, and the stack has {STACK_BYTES}"
        return Refusal(what, instead, slot)

    def room(self, insns: list[Insn], size: int) -> int | None:
        """The offset after all tables at which there is room for more bytes, or None if there is not."""
        return len(self.bytes) - STACK_BYTES if depth_of(insns) + len(self.bytes) + size <= STACK_BYTES else None

    def put(self, insns: list[Insn]) -> list[Insn]:
        """The stores that write all tables; the instructions that name one get its place on the stack."""
        if not self.bytes:
            return []
        depth = depth_of(insns)
        if depth + len(self.bytes) > STACK_BYTES:
            raise self.too_great(f" beside {depth} of the function", self.slot)
        for at, it in enumerate(insns):
            if it.table is not None:
                insns[at] = it._replace(imm=it.table - STACK_BYTES, table=None)
        return list(self.stores(-STACK_BYTES))

    def stores(self, base: int) -> Iterator[Insn]:
        """The stores of all bytes, from an offset of the stack on: eight bytes in one where a number of 32 bits is them."""
        for at in range(0, len(self.bytes), 8):
            eight = int.from_bytes(self.bytes[at:at + 8], "little", signed=True)
            if -1 << 31 <= eight < 1 << 31:
                yield Insn(self.slot, STORE_EIGHT, FRAME, 0, base + at, eight)
            else:
                for half in (at, at + 4):
                    four = int.from_bytes(self.bytes[half:half + 4], "little", signed=True)
                    yield Insn(self.slot, STORE_FOUR, FRAME, 0, base + half, four)


def address_of(slot: int, register: int, table: int) -> list[Insn]:
    """The address of a byte of the tables, in the two slots of a wide load."""
    return [Insn(slot, TO_STACK, register, FRAME, 0, 0), Insn(slot + 1, ADD_NUMBER, register, 0, 0, 0, table=table)]


def depth_of(insns: list[Insn]) -> int:
    """How many bytes of the stack a function has at most: the farthest that it names, with what is taken of a pointer to it."""
    near = [-it.off for it in insns if it.family in (ST, STX) and it.dst == FRAME or it.family == LDX and it.src == FRAME]
    pointers, far, taken, indexed, after = set(), [0], 0, False, None
    for it in insns:
        if it.op == TO_STACK and it.src == FRAME:
            pointers.add(it.dst)
            after = it.dst
            continue
        if it.op == ADD_NUMBER and it.dst == after and it.table is None:
            far.append(-it.imm)
        elif it.op == ADD_NUMBER and it.dst in pointers and it.imm < 0 and it.table is None:
            taken += -it.imm
        elif it.family == ALU and it.code in (ADD, SUB) and it.by_register and it.dst in pointers:
            indexed = True
        elif it.moves() and it.src in pointers:
            pointers.add(it.dst)
        after = None
    back = max([-it.off for it in insns if it.family in (ST, STX, LDX) and it.off < 0 and FRAME not in (it.dst, it.src)], default=0)
    depth = max(near + [max(far) + (taken + back if max(far) else 0)])
    return depth + (-depth) % ALIGN + (64 if indexed and depth else 0)
