"""The file of a node, in TOML: its address, ports, banks, maps, and the programs that are published before the first packet. It is read as
`rmapctl` reads it, and what is wrong has the same code and words."""
from __future__ import annotations

from dataclasses import dataclass, field
from pathlib import Path
from typing import Any, Callable, Optional, Union

from .texts import NoToml, table_of

# The limits of docs/COMMANDS.md, and the keys of each table.
_ADDRESS, _WORD, _PORTS, _SLOT = (0x20, 0xFE), (0, 0xFFFFFFFF), (1, 32), (0, 3)
_SIZE, _ROOM, _CELLS = 1 << 20, 1 << 16, 256
_TEXT, _IMAGE = 1 << 20, 16384
_KEYS = {
    "": ("address", "bank", "map", "ports", "program", "publish"),
    "bank": ("base", "contents", "journal", "size"),
    "map": ("cells", "peak"),
    "publish": ("image", "slot"),
}

# The codes of faults, as `rmapctl explain` has them: of each key, and of each list.
_UNREAD, _NO_TOML, _KEY, NOT_PUBLISHED = 0, 1, 2, 9
_CODES = {"address": 3, "ports": 4, "bank": 5, "base": 5, "size": 5, "journal": 5, "map": 6, "cells": 6, "peak": 6, "contents": 7,
          "program": 8, "publish": 9, "slot": 9, "image": 9}


class NodeFileFault(Exception):
    """A node's file that says what no node may have. `code` is that of docs/CODES.md, as in `node fault 5`. It is 0 if the file itself
    cannot be read, or is no UTF-8, for which `rmapctl` prints `cannot read`."""

    def __init__(self, code: int, text: str):
        self.code = code
        super().__init__(text)


@dataclass
class BankPart:
    base: int = 0xA0000000
    size: int = 65536
    journal: int = 1024
    contents: bytes = b""


@dataclass
class MapPart:
    cells: int
    peak: bool = False


@dataclass
class PublishPart:
    slot: int
    image: bytes


#: What says of an image why it may not judge on these maps, or None.
Refuses = Callable[[bytes, list[MapPart]], Optional[str]]


@dataclass
class NodeFile:
    """What a node's file says; the files that it names, which lie beside it, are read."""
    path: Path
    address: int = 0xFE
    ports: int = 1
    program: Optional[bytes] = None
    banks: list[BankPart] = field(default_factory=list)
    maps: list[MapPart] = field(default_factory=list)
    publishes: list[PublishPart] = field(default_factory=list)

    def fault(self, code: int, text: str) -> NodeFileFault:
        return NodeFileFault(code, f"{self.path} {text}")


class _Table:
    """A table of the file, and where it is: "", or "bank 2 "."""

    def __init__(self, file: NodeFile, kind: str, place: str, rows: dict[str, Any]):
        self.file, self.kind, self.place, self.rows = file, kind, place, rows

    def fault(self, key: str, text: str) -> NodeFileFault:
        return self.file.fault(_CODES[key], f"{self.place}{key}{text}")

    def check_keys(self) -> None:
        for key in sorted(self.rows, key=str.encode):
            if key not in _KEYS[self.kind]:
                if not self.place and key == "load":
                    raise self.file.fault(_KEY, "key load: [[load]] is [[publish]] since 1.0+6, without packets (CHANGELOG)")
                *keys, last = _KEYS[self.kind]
                raise self.file.fault(_KEY, f"{self.place}key {key}: wanted {', '.join(keys)} or {last}")

    def number(self, key: str, bounds: tuple[int, int], default: Optional[int] = None) -> int:
        value = self.rows.get(key, default)
        is_number = isinstance(value, int) and not isinstance(value, bool)
        if is_number and bounds[0] <= value <= bounds[1]:
            return value
        found = f" {value}" if is_number else " is no number" if key in self.rows else " is missing"
        digits = f", {bounds[0]:02X} to {bounds[1]:02X} hexadecimal" if key == "address" else ""
        raise self.fault(key, f"{found}: wanted {bounds[0]} to {bounds[1]}{digits}")

    def flag(self, key: str) -> bool:
        value = self.rows.get(key, False)
        if not isinstance(value, bool):
            raise self.fault(key, ": wanted true or false")
        return value

    def bytes_of(self, key: str, most: int, is_needed: bool = False) -> Optional[bytes]:
        """The bytes of the file that a key names, which has at most this many."""
        name = self.rows.get(key)
        if name is None and not is_needed:
            return None
        if not isinstance(name, str):
            raise self.fault(key, ": wanted the name of a file")
        try:
            with open(self.file.path.parent / name, "rb") as source:
                bytes_found = source.read(most + 1)
        except (OSError, ValueError):
            # (a name that has a NUL is a ValueError)
            raise self.fault(key, f" {name}: cannot be read") from None
        if len(bytes_found) > most:
            raise self.fault(key, f" {name} has more bytes: wanted at most {most}")
        return bytes_found

    def image(self, key: str, maps: list[MapPart], refuses: Optional[Refuses], is_needed: bool = False) -> Optional[bytes]:
        """The image in the file that a key names, which may judge on these maps."""
        image = self.bytes_of(key, _IMAGE, is_needed)
        why = refuses(image, maps) if image is not None and refuses else None
        if why:
            raise self.fault(key, f" {self.rows[key]}: {why}")
        return image

    def items(self, kind: str) -> list[Any]:
        """What a list of tables has."""
        rows = self.rows.get(kind, [])
        if not isinstance(rows, list):
            raise self.file.fault(_CODES[kind], f"{kind} is no list of tables: wanted [[{kind}]]")
        return rows

    def tables(self, kind: str, least: int = 0, most: Optional[int] = None) -> list[_Table]:
        """The tables of a list, of which each is one."""
        rows = self.items(kind)
        if most is not None and not least <= len(rows) <= most:
            wanted = f"{least} to {most}" if least else f"at most {most}"
            raise self.file.fault(_CODES[kind], f"{len(rows)} {kind}s: wanted {wanted}")
        return [self.table(kind, number, row) for number, row in enumerate(rows)]

    def table(self, kind: str, number: int, row: Any) -> _Table:
        # Banks and maps count from 0; a publish has the number of its generation.
        return _Table(self.file, kind, f"{kind} {number + (kind == 'publish')} ", row)

    def checked(self) -> _Table:
        """This table, if it is one."""
        if not isinstance(self.rows, dict):
            raise self.file.fault(_CODES[self.kind], f"{self.place}is no table: wanted [[{self.kind}]]")
        return self


def _check_keys(table: _Table) -> None:
    """Refuses an unknown key: of the node first, then of banks, maps and publishes."""
    table.check_keys()
    for kind in ("bank", "map", "publish"):
        rows = table.rows.get(kind)
        for number, row in enumerate(rows if isinstance(rows, list) else []):
            if isinstance(row, dict):
                table.table(kind, number, row).check_keys()


def _banks(table: _Table) -> list[BankPart]:
    if "bank" not in table.rows:
        return [BankPart()]
    parts = []
    for row in table.tables("bank", 1, 8):
        base = row.checked().number("base", _WORD)
        size = row.number("size", (1, min(_SIZE, _WORD[1] - base + 1)))
        parts.append(BankPart(base, size, row.number("journal", (1, _ROOM))))
    return parts


def _maps(table: _Table) -> list[MapPart]:
    parts: list[MapPart] = []
    for row in table.tables("map", 0, 8):
        left = _CELLS - sum(part.cells for part in parts)
        parts.append(MapPart(row.checked().number("cells", (1, left)), row.flag("peak")))
    return parts


def _publish(row: _Table, maps: list[MapPart], refuses: Optional[Refuses]) -> PublishPart:
    slot = row.checked().number("slot", _SLOT)
    return PublishPart(slot, row.image("image", maps, refuses, is_needed=True) or b"")


def _rows_of(file: NodeFile) -> dict[str, Any]:
    """The table that the file says."""
    try:
        with open(file.path, "rb") as source:
            content = source.read(_TEXT + 1)
        if len(content) > _TEXT:
            raise file.fault(_UNREAD, f"cannot be read: it has more than {_TEXT} bytes")
        return table_of(content.decode("utf-8"))
    except OSError as error:
        raise file.fault(_UNREAD, f"cannot be read: {error.strerror or error}") from None
    except UnicodeDecodeError:
        raise file.fault(_UNREAD, "cannot be read: it is no text in UTF-8") from None
    except ImportError:
        raise file.fault(_UNREAD, "cannot be read: this Python has no tomllib, wanted 3.11 or later") from None
    except NoToml as error:
        raise file.fault(_NO_TOML, f"is no TOML: {error}") from None


def read_node_file(path: Union[str, Path], refuses: Optional[Refuses] = None) -> NodeFile:
    """Reads a node's file and the files that it names. What is wrong raises NodeFileFault: the first fault, in the order of `rmapctl`.
    `refuses` says of an image why it may not judge; without it each may."""
    file = NodeFile(Path(path))
    table = _Table(file, "", "", _rows_of(file))
    _check_keys(table)
    file.address = table.number("address", _ADDRESS, file.address)
    file.ports = table.number("ports", _PORTS, file.ports)
    file.banks, file.maps = _banks(table), _maps(table)
    for bank, row in zip(file.banks, table.tables("bank")):
        bank.contents = row.bytes_of("contents", bank.size) or b""
    file.program = table.image("program", file.maps, refuses)
    file.publishes = [_publish(row, file.maps, refuses) for row in table.tables("publish")]
    return file
