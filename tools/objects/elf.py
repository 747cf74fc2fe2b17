"""Objects as compilers write them: ELF of 64 bits, with the lines of C that -g keeps: clang's in .BTF.ext, gcc's in .debug_line."""
from __future__ import annotations

import os
import struct
from typing import Iterator, NamedTuple

from objects.debug_lines import rows_of, words_of
from objects.refusal import Refusal

# Numbers of ELF: the machine, kinds and flags of sections, kinds of symbols.
BPF = 247
CODE, SYMBOLS, RELA, NO_BYTES, REL = 1, 2, 4, 8, 9
WRITABLE, EXECUTABLE = 1, 4
VARIABLE, FUNCTION, SECTION, FILE = 1, 2, 3, 4
RELOCATABLE = 1

# The bytes of a line in .BTF.ext, or more.
RECORD = 16


class Section(NamedTuple):
    content: bytes
    name: str
    kind: int
    flags: int
    at: int
    size: int
    link: int
    info: int

    @property
    def data(self) -> bytes:
        return b"" if self.kind == NO_BYTES else self.content[self.at:self.at + self.size]


class Symbol(NamedTuple):
    name: str
    kind: int
    section: int
    value: int
    size: int


class Reference(NamedTuple):
    """A relocation: the symbol whose value is wanted, and what is added where the section does not have it."""
    symbol: Symbol
    addend: int | None


class Line(NamedTuple):
    """A line of C, and the byte of its section at which its instructions begin."""
    at: int
    file: str
    number: int
    text: str


def name_at(names: bytes, at: int) -> str:
    return names[at:names.index(b"\0", at)].decode("utf-8", "replace")


def check_head(content: bytes) -> None:
    """Refuses what is no object of BPF in the order of bytes of this machine."""
    if content[:4] == b"BC\xc0\xde":
        raise Refusal("this is LLVM's bitcode", "compile without -flto and -emit-llvm")
    if content[:5] != b"\x7fELF\x02":
        raise Refusal("this is no object of BPF", "give what clang -target bpf -O2 -g -c makes")
    if content[5] != 1:
        raise Refusal("this is an object for the other order of bytes", "compile with -target bpfel")
    kind, machine = struct.unpack_from("<HH", content, 16)
    if machine != BPF:
        raise Refusal("this is an object for another machine", "compile with -target bpf")
    if kind != RELOCATABLE:
        raise Refusal("this is linked", "give what -c makes")


class Object:
    """An object: its sections, and the symbols that are defined in it or wanted by it."""

    def __init__(self, content: bytes):
        check_head(content)
        self.sections = self.read_sections(content)
        self.symbols = self.read_symbols()

    @staticmethod
    def read_sections(content: bytes) -> list[Section]:
        first, = struct.unpack_from("<Q", content, 0x28)
        size, count, names_at = struct.unpack_from("<HHH", content, 0x3A)
        heads = [struct.unpack_from("<IIQQQQII", content, first + number * size) for number in range(count)]
        names = content[heads[names_at][4]:][:heads[names_at][5]]
        return [Section(content, name_at(names, name), kind, flags, at, size, link, info)
                for name, kind, flags, _, at, size, link, info in heads]

    def read_symbols(self) -> list[Symbol]:
        table = next((it for it in self.sections if it.kind == SYMBOLS), None)
        if table is None:
            raise Refusal("the object has no symbols", "do not strip it")
        names = self.sections[table.link].data
        return [Symbol(name_at(names, name), info & 15, section, value, size)
                for name, info, _, section, value, size in struct.iter_unpack("<IBBHQQ", table.data)]

    def data_of(self, name: str) -> bytes:
        """The bytes of the first section of a name, or none where there is none."""
        return next((it.data for it in self.sections if it.name == name), b"")

    def references(self, section: int) -> dict[int, Reference]:
        """What is wanted in a section, by the byte."""
        found = {}
        for it in self.sections:
            if it.kind in (REL, RELA) and it.info == section:
                for at, info, *addend in struct.iter_unpack("<QQq" if it.kind == RELA else "<QQ", it.data):
                    found[at] = Reference(self.symbols[info >> 32], addend[0] if addend else None)
        return found

    def section_of(self, symbol: Symbol) -> Section | None:
        return self.sections[symbol.section] if 0 < symbol.section < len(self.sections) else None

    def functions(self, section: int) -> list[Symbol]:
        return sorted((it for it in self.symbols if it.kind == FUNCTION and it.section == section), key=lambda it: it.value)

    def variables(self, section: str) -> list[Symbol]:
        """The variables in the sections of a name."""
        return [it for it in self.symbols if it.kind == VARIABLE and (place := self.section_of(it)) and place.name == section]

    def source(self) -> str:
        """The name of the file of C."""
        return os.path.basename(next((it.name for it in self.symbols if it.kind == FILE), ""))

    def is_of_gcc(self) -> bool:
        return b"GCC:" in self.data_of(".comment")

    def lines(self, section: int) -> list[Line]:
        """The lines of a section, in the order of its bytes; none where the object does not say them."""
        for read in (self.btf_lines, self.debug_lines):
            try:
                found = read(section)
            except (ValueError, OverflowError, IndexError, KeyError, struct.error):
                continue
            if found:
                return found
        return []

    def btf_lines(self, section: int) -> list[Line]:
        """The lines that .BTF.ext has of a section."""
        return sorted(read_lines(self.data_of(".BTF"), self.data_of(".BTF.ext"), self.sections[section].name))

    def debug_lines(self, section: int) -> list[Line]:
        """The lines that .debug_line has of a section. Of several rows at one byte the last is the instruction's. What stands in a line
        is in the file of C, if that is there."""
        place = next((at for at, it in enumerate(self.sections) if it.name == ".debug_line"), None)
        if place is None:
            return []
        wanted = self.references(place)
        found: dict[int, Line] = {}
        words: dict[str, list[str]] = {}
        for row in rows_of(self.sections[place].data, self.data_of(".debug_str"), self.data_of(".debug_line_str")):
            reference = wanted.get(row.place)
            if reference is not None and reference.symbol.section == section and row.number > 0:
                if row.file not in words:
                    words[row.file] = words_of(row.file)
                there = words[row.file]
                text = there[row.number - 1].strip() if row.number <= len(there) else ""
                at = row.at if reference.addend is None else row.at + reference.symbol.value + reference.addend
                found[at] = Line(at, row.file, row.number, text)
        return [found[at] for at in sorted(found)]


def read_lines(types: bytes, more: bytes, section: str) -> Iterator[Line]:
    head, = struct.unpack_from("<I", types, 4)
    strings_at, strings_size = struct.unpack_from("<II", types, 16)
    strings = types[head + strings_at:][:strings_size]
    head, _, _, at, size = struct.unpack_from("<IIIII", more, 4)
    at += head
    end = at + size
    record, = struct.unpack_from("<I", more, at)
    at += 4
    while at < end and record >= RECORD:
        name, count = struct.unpack_from("<II", more, at)
        at += 8
        for _ in range(count):
            byte, file, text, place = struct.unpack_from("<IIII", more, at)
            at += record
            # Line 0 is of no line.
            if name_at(strings, name) == section and place >> 10:
                yield Line(byte, name_at(strings, file), place >> 10, name_at(strings, text).strip())
