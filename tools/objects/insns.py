"""Instructions, and their text in the words of `rmapctl asm`."""
from __future__ import annotations

from typing import NamedTuple

# Classes of opcodes, and opcodes that are read by themselves.
LD, LDX, ST, STX, ALU32, JMP, JMP32, ALU = range(8)
WIDE, CALL, EXIT, GOTO, FAR_GOTO = 0x18, 0x85, 0x95, 0x05, 0x06

# The register of the stack's end.
FRAME = 10

# The opcode of `be32`; with a source, it turns the bytes of that round, as no instruction does.
TURN = 0xDC

# Codes of arithmetic and of comparisons.
ADD, SUB, MUL, DIV, LSH, RSH, NEG, MOD, MOV, ARSH, END = 0, 1, 2, 3, 6, 7, 8, 9, 11, 12, 13
OPERATIONS = {0: "add", 1: "sub", 2: "mul", 3: "div", 4: "or", 5: "and", 6: "lsh", 7: "rsh", 9: "mod", 10: "xor", 11: "mov",
              12: "arsh"}
COMPARISONS = {1: "jeq", 2: "jgt", 3: "jge", 4: "jset", 5: "jne", 6: "jsgt", 7: "jsge", 10: "jlt", 11: "jle", 12: "jslt",
               13: "jsle"}
# The comparison that holds where this one does not; of `jset` there is none.
OPPOSITE = {1: 5, 5: 1, 2: 11, 11: 2, 3: 10, 10: 3, 6: 13, 13: 6, 7: 12, 12: 7}

# The bit of an opcode that takes a register in place of a number.
BY_REGISTER = 8

# Sizes and modes of loads and stores.
SIZES = {0x00: "w", 0x08: "h", 0x10: "b", 0x18: "dw"}
MEM, SIGNED_MEM = 0x60, 0x80
DOUBLE = MEM | 0x18


class Insn(NamedTuple):
    """An instruction at a slot of the function; `map` is the number of the map that it loads, and `table` the byte of all tables of
    constants whose place on the stack is its number."""
    slot: int
    op: int
    dst: int
    src: int
    off: int
    imm: int
    high: int = 0
    map: int | None = None
    table: int | None = None

    @property
    def family(self) -> int:
        return self.op & 7

    @property
    def code(self) -> int:
        return self.op >> 4

    @property
    def by_register(self) -> bool:
        return bool(self.op & BY_REGISTER)

    @property
    def slots(self) -> int:
        return 2 if self.op == WIDE else 1

    @property
    def compares(self) -> bool:
        return self.family in (JMP, JMP32) and self.code in COMPARISONS

    @property
    def target(self) -> int | None:
        """The slot to which it jumps, or may jump."""
        if self.op == FAR_GOTO:
            return self.slot + 1 + self.imm
        return self.slot + 1 + self.off if self.op == GOTO or self.compares else None

    def is_double(self, family: int) -> bool:
        """Whether it is a load, or a store, of eight bytes."""
        return self.op == DOUBLE | family

    def reads(self) -> set[int]:
        """The registers that it reads; of a call all that it may."""
        if self.op in (CALL, EXIT):
            return {1, 2, 3, 4, 5} if self.op == CALL else {0}
        if self.family in (LDX, LD):
            return {self.src} if self.family == LDX else set()
        has_source = self.family == STX or self.family >= ALU32 and self.by_register and self.code != END
        is_set = self.family in (ALU32, ALU) and self.code == MOV or self.op == GOTO
        return ({self.src} if has_source else set()) | (set() if is_set else {self.dst})

    def writes(self) -> set[int]:
        """The registers that it writes, those that it unsets included."""
        if self.op == CALL:
            return {0, 1, 2, 3, 4, 5}
        return {self.dst} if self.family in (LD, LDX, ALU32, ALU) else set()

    def moves(self, family: int = ALU) -> bool:
        """Whether it copies a register as it is."""
        return self.family == family and self.code == MOV and self.by_register and not self.off


def text_of(insn: Insn, target: str = "") -> str | None:
    """The text of an instruction, which jumps to this label if it jumps, or None where there is none for it."""
    if insn.map is not None:
        return f"ldmap r{insn.dst}, {insn.map}"
    if insn.op == WIDE:
        value = (insn.high & 0xFFFFFFFF) << 32 | insn.imm & 0xFFFFFFFF
        return f"lddw r{insn.dst}, 0x{value:016x}" if insn.src == 0 else None
    if insn.op in (CALL, EXIT):
        return "exit" if insn.op == EXIT else f"call {insn.imm}"
    if insn.op in (GOTO, FAR_GOTO):
        return f"ja {target}"
    if insn.compares:
        return f"{COMPARISONS[insn.code]}{'32' if insn.family == JMP32 else ''} r{insn.dst}, {operand(insn)}, {target}"
    if insn.family in (ALU, ALU32):
        return arithmetic_text(insn)
    return memory_text(insn)


def operand(insn: Insn) -> str:
    return f"r{insn.src}" if insn.by_register else str(insn.imm)


def arithmetic_text(insn: Insn) -> str | None:
    width = "32" if insn.family == ALU32 else ""
    if insn.code == END:
        return swap_text(insn)
    if insn.code == NEG:
        return None if insn.by_register else f"neg{width} r{insn.dst}"
    if insn.code == MOV and insn.by_register and insn.off in (8, 16, 32):
        return f"mov{width}sx{insn.off} r{insn.dst}, r{insn.src}"
    name = OPERATIONS.get(insn.code)
    if name is None or insn.off not in ((0, 1) if insn.code in (DIV, MOD) else (0,)):
        return None
    return f"{'s' * insn.off}{name}{width} r{insn.dst}, {operand(insn)}"


def swap_text(insn: Insn) -> str | None:
    order = {ALU32: "be" if insn.by_register else "le", ALU: None if insn.by_register else "swap"}[insn.family]
    return f"{order}{insn.imm} r{insn.dst}" if order and insn.imm in (16, 32, 64) else None


def memory_text(insn: Insn) -> str | None:
    size, mode = SIZES[insn.op & 0x18], insn.op & 0xE0
    if insn.family == LDX and mode in (MEM, SIGNED_MEM):
        return f"ldx{'s' if mode == SIGNED_MEM else ''}{size} r{insn.dst}, [r{insn.src}{insn.off:+}]"
    if insn.family == ST and mode == MEM:
        return f"st{size} [r{insn.dst}{insn.off:+}], {insn.imm}"
    return f"stx{size} [r{insn.dst}{insn.off:+}], r{insn.src}" if insn.family == STX and mode == MEM else None
