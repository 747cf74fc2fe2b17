"""Instructions, from RFC 9669 and docs/BPF.md alone: how they are spelled in bytes and in text."""
from __future__ import annotations

import re
from dataclasses import dataclass
from functools import lru_cache

# The codes of arithmetic and of comparisons, by their names.
ALU = {"add": 0, "sub": 1, "mul": 2, "div": 3, "or": 4, "and": 5, "lsh": 6, "rsh": 7, "neg": 8, "mod": 9, "xor": 10, "mov": 11,
       "arsh": 12}
SIGNED = {"sdiv": 3, "smod": 9}
JUMPS = {"jeq": 1, "jgt": 2, "jge": 3, "jset": 4, "jne": 5, "jsgt": 6, "jsge": 7, "jlt": 10, "jle": 11, "jslt": 12, "jsle": 13}

# The sizes of loads and stores, by their letters, and how many bytes each has.
SIZES = {"w": 0x00, "h": 0x08, "b": 0x10, "dw": 0x18}
BYTES = {0x00: 4, 0x08: 2, 0x10: 1, 0x18: 8}

# The classes.
LD, LDX, ST, STX, ALU32, JMP, JMP32, ALU64 = range(8)

FROM_REGISTER = 0x08
CALL, EXIT, TWO_SLOTS = 0x85, 0x95, 0x18
LDMAP = 5


@dataclass(frozen=True)
class Reg:
    """A register."""
    number: int


# The source of an instruction: a number, or a register.
Source = int | Reg


def signed(value: int, bits: int) -> int:
    """The number whose two's complement these low bits are."""
    value &= (1 << bits) - 1
    return value - (1 << bits) if value >> (bits - 1) else value


@dataclass(frozen=True)
class Insn:
    """An instruction: its fields as they are spelled, and of one of two slots the second immediate."""
    opcode: int
    dst: int = 0
    src: int = 0
    offset: int = 0
    imm: int = 0
    high: int = 0

    @property
    def kind(self) -> int:
        """The class."""
        return self.opcode & 7

    @property
    def code(self) -> int:
        return self.opcode >> 4

    @property
    def slots(self) -> int:
        return 2 if self.opcode == TWO_SLOTS else 1

    @property
    def is_from_register(self) -> bool:
        return bool(self.opcode & FROM_REGISTER)

    def spelled(self) -> bytes:
        """The bytes of its slots."""
        first = bytes([self.opcode, self.src << 4 | self.dst]) + (self.offset & 0xFFFF).to_bytes(2, "little")
        first += (self.imm & 0xFFFFFFFF).to_bytes(4, "little")
        return first + (bytes(4) + (self.high & 0xFFFFFFFF).to_bytes(4, "little") if self.slots == 2 else b"")


def with_source(opcode: int, dst: int, source: Source, offset: int = 0) -> Insn:
    """An instruction whose source bit says what its source is."""
    if isinstance(source, Reg):
        return Insn(opcode | FROM_REGISTER, dst, source.number, offset)
    return Insn(opcode, dst, 0, offset, source)


def alu(name: str, dst: int, source: Source, width: int = 64) -> Insn:
    kind = ALU64 if width == 64 else ALU32
    if name in SIGNED:
        return with_source(SIGNED[name] << 4 | kind, dst, source, 1)
    return with_source(ALU[name] << 4 | kind, dst, source)


def negate(dst: int, width: int = 64) -> Insn:
    return Insn(ALU["neg"] << 4 | (ALU64 if width == 64 else ALU32), dst)


def move_signed(bits: int, dst: int, src: int, width: int = 64) -> Insn:
    """A move that extends the sign of so many bits."""
    return Insn(0xB8 | (ALU64 if width == 64 else ALU32), dst, src, bits)


def swap(name: str, bits: int, dst: int) -> Insn:
    """An order of bytes: `le`, `be` or `swap`."""
    return Insn({"le": 0xD4, "be": 0xDC, "swap": 0xD7}[name], dst, 0, 0, bits)


def load(letters: str, dst: int, base: int, offset: int) -> Insn:
    """A load; `sb`, `sh` and `sw` extend the sign."""
    mode = 0x80 if letters[0] == "s" else 0x60
    return Insn(mode | SIZES[letters.removeprefix("s")] | LDX, dst, base, offset)


def store(letters: str, base: int, offset: int, source: Source) -> Insn:
    if isinstance(source, Reg):
        return Insn(0x60 | SIZES[letters] | STX, base, source.number, offset)
    return Insn(0x60 | SIZES[letters] | ST, base, 0, offset, source)


def jump(name: str, dst: int, source: Source, offset: int, width: int = 64) -> Insn:
    return with_source(JUMPS[name] << 4 | (JMP if width == 64 else JMP32), dst, source, offset)


def wide(dst: int, value: int) -> Insn:
    return Insn(TWO_SLOTS, dst, 0, 0, signed(value, 32), signed(value >> 32, 32))


def load_map(dst: int, index: int) -> Insn:
    return Insn(TWO_SLOTS, dst, LDMAP, 0, index)


def call(number: int) -> Insn:
    return Insn(CALL, imm=number)


def leave() -> Insn:
    return Insn(EXIT)


def name_of(names: dict[str, int], code: int) -> str:
    return next(name for name, known in names.items() if known == code)


def text(insn: Insn) -> str:
    """The text of an instruction that the generators make, as docs/COMMANDS.md has it."""
    source = f"r{insn.src}" if insn.is_from_register else str(insn.imm)
    if insn.opcode == TWO_SLOTS:
        if insn.src == LDMAP:
            return f"ldmap r{insn.dst}, {insn.imm}"
        value = (insn.high & 0xFFFFFFFF) << 32 | insn.imm & 0xFFFFFFFF
        return f"lddw r{insn.dst}, 0x{value:016x}"
    if insn.opcode == EXIT:
        return "exit"
    if insn.opcode == CALL:
        return f"call {insn.imm}"
    if insn.kind in (LDX, ST, STX):
        return access_text(insn)
    if insn.kind in (JMP, JMP32):
        width = "32" if insn.kind == JMP32 else ""
        if insn.code == 0:
            return f"ja{width} {(insn.imm if width else insn.offset):+}"
        return f"{name_of(JUMPS, insn.code)}{width} r{insn.dst}, {source}, {insn.offset:+}"
    return arithmetic_text(insn, source)


def access_text(insn: Insn) -> str:
    """The text of a load or a store."""
    size = name_of(SIZES, insn.opcode & 0x18)
    if insn.kind == LDX:
        sign = "s" if insn.opcode & 0xE0 == 0x80 else ""
        return f"ldx{sign}{size} r{insn.dst}, [r{insn.src}{insn.offset:+}]"
    if insn.kind == STX:
        return f"stx{size} [r{insn.dst}{insn.offset:+}], r{insn.src}"
    return f"st{size} [r{insn.dst}{insn.offset:+}], {insn.imm}"


def arithmetic_text(insn: Insn, source: str) -> str:
    """The text of arithmetic."""
    width = "32" if insn.kind == ALU32 else ""
    if insn.code == 13:
        name = "swap" if insn.kind == ALU64 else "be" if insn.is_from_register else "le"
        return f"{name}{insn.imm} r{insn.dst}"
    if insn.code == ALU["neg"]:
        return f"neg{width} r{insn.dst}"
    if insn.code == ALU["mov"] and insn.offset:
        return f"mov{width}sx{insn.offset} r{insn.dst}, {source}"
    name = name_of(SIGNED if insn.offset else ALU, insn.code)
    return f"{name}{width} r{insn.dst}, {source}"


def operand(word: str) -> Source:
    """A register or a number, as a text has it."""
    if word[0] == "r":
        return Reg(int(word[1:]))
    return signed(int(word, 16), 32) if word.startswith("0x") else int(word)


def place(word: str) -> tuple[int, int]:
    """The base and the offset of `[rN+K]`."""
    base, offset = re.fullmatch(r"\[r(\d+)([+-]\d+)\]", word).groups()  # type: ignore[union-attr]
    return int(base), int(offset)


def read(line: str, slot: int, labels: dict[str, int]) -> Insn:
    """The instruction of a line at a slot; a target is a distance or a label."""
    label = line.rpartition(", ")[2]
    return parsed(line.removesuffix(label) + f"{labels[label] - slot - 1:+}" if label in labels else line)


@lru_cache(maxsize=4096)
def parsed(line: str) -> Insn:
    """The instruction of a line, whose target is a distance."""
    name, _, rest = line.partition(" ")
    words = [word.strip() for word in rest.split(",")] if rest else []
    width = 32 if name.endswith("32") and name[:-2] in ALU | SIGNED | JUMPS else 64
    stem = name.removesuffix("32") if width == 32 else name
    if stem in JUMPS:
        return jump(stem, int(words[0][1:]), operand(words[1]), int(words[2]), width)
    if stem in ALU | SIGNED:
        return alu(stem, int(words[0][1:]), operand(words[1]), width)
    return read_other(name, words)


def read_other(name: str, words: list[str]) -> Insn:
    """The instruction of a name that is neither arithmetic nor a jump."""
    if name == "exit":
        return leave()
    if name in ("ja", "ja32"):
        leads = int(words[0])
        return Insn(0x05, offset=leads) if name == "ja" else Insn(0x06, imm=leads)
    if name == "call":
        return call(int(words[0]))
    if name in ("lddw", "ldmap"):
        return (wide if name == "lddw" else load_map)(int(words[0][1:]), int(words[1], 0))
    if match := re.fullmatch(r"(le|be|swap)(\d+)", name):
        return swap(match[1], int(match[2]), int(words[0][1:]))
    if match := re.fullmatch(r"movsx(\d+)", name):
        return move_signed(int(match[1]), int(words[0][1:]), int(words[1][1:]))
    if name.startswith("ldx"):
        return load(name.removeprefix("ldx"), int(words[0][1:]), *place(words[1]))
    return store(name.removeprefix("stx" if name.startswith("stx") else "st"), *place(words[0]), operand(words[1]))
