"""The lines of C that gcc's -g keeps in .debug_line: DWARF 5, section 6.2, as much as a compiler of C writes."""
from __future__ import annotations

import os
import struct
from typing import Iterator, NamedTuple

VERSION = 5

# What a column of a table of names says, and in which form.
NAME, FOLDER = 1, 2
STRING, BLOCK, DATA_1, DATA_2, DATA_4, NUMBER, DATA_16, STRING_AT, LINE_STRING_AT = 0x08, 0x09, 0x0B, 0x05, 0x06, 0x0F, 0x1E, 0x0E, 0x1F
SIZES = {DATA_1: 1, DATA_2: 2, DATA_4: 4, STRING_AT: 4, LINE_STRING_AT: 4, DATA_16: 16}

# Operations; those of one byte that have operands nobody asks for here are left out by the table of the head.
EXTENDED, COPY, ADVANCE, LINE, IN_FILE, ADD_CONSTANT, ADD_FIXED = 0, 1, 2, 3, 4, 8, 9
END, SET_ADDRESS = 1, 2

# The longest file of C that is read for the words of its lines.
LONGEST = 1 << 20


class Row(NamedTuple):
    """A line of a file, and where its instructions begin: the byte of .debug_line whose relocation names their section, and how
    many bytes after that symbol they are."""
    place: int
    at: int
    file: str
    number: int


class Reader:
    """Reads numbers and names one after the other."""

    def __init__(self, data: bytes, at: int, strings: dict[int, bytes]):
        self.data, self.at, self.strings = data, at, strings

    def number(self, form: str) -> int:
        found, = struct.unpack_from("<" + form, self.data, self.at)
        self.at += struct.calcsize("<" + form)
        return found

    def leb(self, signed: bool = False) -> int:
        """A number of groups of seven bits, the least first."""
        found = shift = 0
        while True:
            byte = self.number("B")
            found |= (byte & 0x7F) << shift
            shift += 7
            if byte < 0x80:
                return found - (1 << shift) if signed and byte & 0x40 else found

    def name(self) -> str:
        end = self.data.index(b"\0", self.at)
        found, self.at = self.data[self.at:end], end + 1
        return found.decode("utf-8", "replace")

    def value(self, form: int) -> int | str:
        if form == STRING:
            return self.name()
        if form == NUMBER:
            return self.leb()
        if form == BLOCK:
            self.at += self.leb()
            return 0
        found = self.data[self.at:self.at + SIZES[form]]
        self.at += SIZES[form]
        number = int.from_bytes(found, "little")
        return Reader(self.strings[form], number, {}).name() if form in self.strings else number

    def table(self) -> list[dict[int, int | str]]:
        """A table of folders or of files."""
        columns = [(self.leb(), self.leb()) for _ in range(self.number("B"))]
        count = self.leb()
        if not columns or count > len(self.data):
            raise ValueError("a table that is none")
        return [{kind: self.value(form) for kind, form in columns} for _ in range(count)]


def files_of(reader: Reader) -> list[str]:
    """The names of the files of a unit, with their folders."""
    folders = [str(it.get(NAME, "")) for it in reader.table()]
    found = []
    for it in reader.table():
        folder = folders[it.get(FOLDER, 0)]
        found.append(os.path.join(folders[0], folder, str(it.get(NAME, ""))))
    return found


def rows_of(data: bytes, strings: bytes, line_strings: bytes) -> Iterator[Row]:
    """The rows of all units; a row of line 0 is of no line."""
    at = 0
    while at < len(data):
        length, = struct.unpack_from("<I", data, at)
        reader = Reader(data[:at + 4 + length], at + 4, {STRING_AT: strings, LINE_STRING_AT: line_strings})
        if reader.number("H") == VERSION:
            yield from unit_rows(reader)
        at += 4 + length


def unit_rows(reader: Reader) -> Iterator[Row]:
    """The rows of one unit."""
    reader.number("H")
    after = reader.number("I") + reader.at
    least, _, _, line_base, line_range, opcode_base = struct.unpack_from("<BBBbBB", reader.data, reader.at)
    reader.at += 6
    if not line_range:
        raise ValueError("a range of no lines")
    operands = [reader.number("B") for _ in range(opcode_base - 1)]
    files = files_of(reader)
    reader.at = after
    place, address, file, line = 0, 0, 1, 1
    while reader.at < len(reader.data):
        code = reader.number("B")
        if code >= opcode_base:
            steps, more = divmod(code - opcode_base, line_range)
            address, line = address + least * steps, line + line_base + more
            yield Row(place, address, files[file], line)
        elif code == EXTENDED:
            size = reader.leb()
            end = reader.at + size
            kind = reader.number("B")
            if kind == SET_ADDRESS:
                place, address = reader.at, reader.number("Q")
            elif kind == END:
                place, address, file, line = 0, 0, 1, 1
            reader.at = end
        elif code == COPY:
            yield Row(place, address, files[file], line)
        elif code == ADVANCE:
            address += least * reader.leb()
        elif code == LINE:
            line += reader.leb(signed=True)
        elif code == IN_FILE:
            file = reader.leb()
        elif code == ADD_CONSTANT:
            address += least * ((255 - opcode_base) // line_range)
        elif code == ADD_FIXED:
            address += reader.number("H")
        else:
            for _ in range(operands[code - 1]):
                reader.leb()


def words_of(file: str) -> list[str]:
    """The lines of a file of C; none if it is no more there, or is none."""
    try:
        if not os.path.isfile(file) or os.path.getsize(file) > LONGEST:
            return []
        with open(file, encoding="utf-8", errors="replace") as content:
            return content.read().split("\n")
    except (OSError, ValueError):
        return []
