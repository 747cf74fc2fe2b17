"""The function that judges: its maps, its instructions, and what these refer to."""
from __future__ import annotations

import struct
from typing import Iterator, NamedTuple

from objects.elf import CODE, EXECUTABLE, SECTION, WRITABLE, Object, Reference
from objects.insns import CALL, FRAME, TURN, WIDE, Insn, text_of
from objects.refusal import Refusal
from objects.tables import Tables, address_of

HELPERS = {1: "count", 2: "ticket", 3: "peak"}
MAX_MAPS = 8

# The opcode of `stxdw`.
KEEP = 0x7B
MAX_CELLS = 256

# What gcc 12 calls to turn the bytes of a number round, and how many bits it has.
TURNS = {"__bswapsi2": 32, "__bswapdi2": 64}
SIGNED_DIVISIONS = ("__divdi3", "__moddi3", "__divsi3", "__modsi3")

ATOMIC = ("an atomic operation", "draw a ticket of a cell")
# What opcodes are for which there is no instruction here.
UNKNOWN = {
    0x0D: ("a jump through a table", "compile with -fno-jump-tables"),
    0x8D: ("a call by a pointer", "call the function by its name, and put SANDBAR_ALWAYS_INLINE before it"),
    0xC3: ATOMIC,
    0xDB: ATOMIC,
}


class Maps:
    """The maps of an object, in the order of their section, which is the compiler's: what they are is in their bytes."""

    # The bytes of a `struct map`: number, cells, peak.
    SIZE = 12

    def __init__(self, whole: Object):
        data = whole.data_of(".maps")
        for it in whole.variables(".maps"):
            if it.size != self.SIZE or it.value % self.SIZE:
                raise Refusal(f"{it.name} in .maps is no map", "declare maps by COUNTERS and PEAKS, and put nothing else there")
        self.maps = list(struct.iter_unpack("<III", data))
        numbers = sorted(number for number, _, _ in self.maps)
        if numbers != list(range(len(numbers))):
            raise Refusal(f"the numbers of the maps are {', '.join(map(str, numbers))}",
                          "declare all maps of the node, numbered from 0 as in --maps, each number once")
        cells = [count for _, count, _ in self.maps]
        if len(cells) > MAX_MAPS or 0 in cells or sum(cells) > MAX_CELLS:
            raise Refusal(f"{len(cells)} maps of {sum(cells)} cells",
                          f"declare at most {MAX_MAPS} maps, each with a cell, of {MAX_CELLS} cells together")

    def listed(self) -> str:
        """The list for `--maps`."""
        return ",".join(f"{cells}{'p' if is_peak else ''}" for _, cells, is_peak in sorted(self.maps))

    def number_at(self, at: int, slot: int) -> int:
        if at % self.SIZE or not 0 <= at < self.SIZE * len(self.maps):
            raise Refusal("a part of a map", "give the map as it is to count, ticket or peak", slot)
        return self.maps[at // self.SIZE][0]


class Function(NamedTuple):
    name: str
    section: int
    start: int
    code: bytes

    def is_plain(self) -> bool:
        """Whether it may have been compiled without -O1, -O2 or -Os: it begins by keeping r1, r2 and r3 on the stack."""
        first = [struct.unpack_from("<BBhi", self.code, at) for at in range(0, min(len(self.code) - 7, 24), 8)]
        kept = [(op, registers) for op, registers, _, _ in first] == [(KEEP, number << 4 | FRAME) for number in (1, 2, 3)]
        return kept and [off - first[0][2] for _, _, off, _ in first] == [0, -8, -16]

    def calls_another(self) -> bool:
        return any(self.code[at] == CALL and self.code[at + 1] >> 4 == 1 for at in range(0, len(self.code) - 7, 8))


def function_of(whole: Object, section_name: str) -> Function:
    """The one function of a section; of several one that calls another, since that is what is wrong there."""
    found = []
    for at, section in enumerate(whole.sections):
        if section.name == section_name and section.kind == CODE:
            found += [Function(it.name, at, it.value, section.data[it.value:][:it.size]) for it in whole.functions(at)]
    if not found:
        others = sorted({section.name for at, section in enumerate(whole.sections) if whole.functions(at)})
        there = f"name {' or '.join(others)} by --section" if others else "write uint64_t authorise(..), and not static"
        raise Refusal(f"there is no function in {section_name}", there)
    callers = [it for it in found if it.calls_another()]
    if len(found) > 1 and not callers:
        raise Refusal(f"{section_name} has {len(found)} functions, {', '.join(it.name for it in found)}",
                      "put SANDBAR_ALWAYS_INLINE before all but one, or put each into a section of its own and name one by --section")
    return (callers or found)[0]


class Decoder:
    """Reads the instructions of a function."""

    def __init__(self, whole: Object, function: Function, maps: Maps):
        self.whole, self.function, self.maps = whole, function, maps
        self.tables = Tables(whole)
        self.references = whole.references(function.section)

    def insns(self) -> Iterator[Insn]:
        code, slot = self.function.code, 0
        while slot < len(code) // 8:
            op, registers, off, imm = struct.unpack_from("<BBhi", code, 8 * slot)
            insn = Insn(slot, op, registers & 15, registers >> 4, off, imm)
            if op == WIDE:
                insn = self.wide(insn._replace(high=struct.unpack_from("<i", code, 8 * slot + 12)[0]))
            elif op == CALL:
                insn = self.call(insn)
            if text_of(insn) is None or max(insn.dst, insn.src if insn.map is None else 0) > 10:
                what = f"an instruction of opcode {op:02X}, for which there is none here"
                raise Refusal(*UNKNOWN.get(op, (what, "write it in other words")), slot)
            if insn.table is None:
                yield insn
            else:
                yield from address_of(slot, insn.dst, insn.table)
            slot += insn.slots

    def reference(self, insn: Insn) -> Reference | None:
        return self.references.get(self.function.start + 8 * insn.slot)

    def wide(self, insn: Insn) -> Insn:
        """A constant as it is, or a map."""
        reference = self.reference(insn)
        if reference is None:
            return insn
        symbol = reference.symbol
        section = self.whole.section_of(symbol)
        if section is None:
            raise Refusal(f"{symbol.name} is defined nowhere", "declare a map by COUNTERS or PEAKS", insn.slot)
        at = self.place_of(insn, reference)
        if section.name == ".maps":
            return insn._replace(map=self.maps.number_at(at, insn.slot))
        variables = [it for it in self.whole.variables(section.name) if it.value <= at < it.value + it.size]
        name = f"{variables[0].name} in {section.name}" if variables else section.name
        if section.flags & WRITABLE:
            raise Refusal(f"{name}, a variable that outlasts a run", "count in a map: COUNTERS, PEAKS", insn.slot)
        if section.flags & EXECUTABLE:
            raise Refusal(f"the address of a function in {name}", "call it by its name, and put SANDBAR_ALWAYS_INLINE before it", insn.slot)
        variable = next((it for it in variables if it.section == symbol.section), None)
        return insn._replace(table=self.tables.place(section, symbol.section, at, variable, insn.slot))

    def place_of(self, insn: Insn, reference: Reference) -> int:
        """The byte of its section that is wanted. An assembler that is not clang's puts the value of the symbol into the
        instruction too."""
        if reference.addend is not None:
            return reference.symbol.value + reference.addend
        return insn.imm if self.whole.is_of_gcc() else reference.symbol.value + insn.imm

    def call(self, insn: Insn) -> Insn:
        """A call of a helper, or what turns the bytes of r1 round into r0; every other call is refused."""
        reference = self.reference(insn)
        if reference is None and insn.src == 0:
            if insn.imm not in HELPERS:
                raise Refusal(f"a call of helper {insn.imm}, which is none", "call count, ticket or peak", insn.slot)
            return insn
        name = self.callee(insn, reference)
        if name in TURNS and self.whole.section_of(reference.symbol) is None:
            return Insn(insn.slot, TURN, 0, 1, 0, TURNS[name])
        if name in SIGNED_DIVISIONS:
            raise Refusal(f"signed division, by a call of {name}", "divide unsigned numbers, or take clang's -mcpu=v4",
                          insn.slot)
        if reference and self.whole.section_of(reference.symbol) is None:
            raise Refusal(f"a call of {name}, which is not in the file",
                          "write out what it does, or define it with SANDBAR_ALWAYS_INLINE before it", insn.slot)
        raise Refusal(f"a call of {name}, another function", "put SANDBAR_ALWAYS_INLINE before it", insn.slot)

    def callee(self, insn: Insn, reference: Reference | None) -> str:
        if reference and reference.symbol.kind != SECTION:
            return reference.symbol.name
        section, at = self.function.section, self.function.start + 8 * (insn.slot + insn.imm + 1)
        if reference:
            section, at = reference.symbol.section, 8 * (insn.imm + 1)
        return next((it.name for it in self.whole.functions(section) if it.value == at), "a function")
