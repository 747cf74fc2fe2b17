"""A node of the proved library in this process."""
from __future__ import annotations

from ctypes import byref, c_uint8, c_uint64
from dataclasses import dataclass
from pathlib import Path
from typing import Iterable, Optional, Sequence, Union

from . import library as c
from .files import NOT_PUBLISHED, MapPart, NodeFile, read_node_file
from .journals import Damaged, Entry
from .loads import load

#: The image of the program that says yes to every command: `mov r0, 0; exit`.
YES = bytes.fromhex("42504641010002000200000000000000B7000000000000009500000000000000")

_ENDS = {"EOP": 0, "EEP": 1}
_KINDS = ("discarded", "answered", "judged")
_COMMANDS = (None, "read", "write", "rmw")
_PLACES = (None, "bank", "window")
_FOUND = (None, "whole", "mended", "withdrawn")
_NO_MEMORY, _BAD_IMAGE, _REFUSED, _DAMAGED = 1, 5, 6, 15
_ALL = 3
_SIZES_DIFFER, _COUNT_DIFFERS = 1, 2


class NodeFault(Exception):
    """A call that the library did not do: its code, and of a program that may not judge why, and at which slot."""

    def __init__(self, code: int, why: Optional[c.Why] = None):
        self.code, self.why, self.slot = code, why.code if why else 0, why.slot if why else 0
        text = c.TEXTS.get(code, f"code {code}")
        if code in (_BAD_IMAGE, _REFUSED):
            text += f": {'image fault ' if code == _BAD_IMAGE else 'V'}{self.why} slot {self.slot}"
        super().__init__(text)


@dataclass(frozen=True)
class Bank:
    """Memory that commands read and write. `room` is how many entries its journal takes."""
    base: int = 0xA0000000
    size: int = 65536
    room: int = 1024


@dataclass(frozen=True)
class Map:
    """Cells that programs share: counters, or peaks."""
    cells: int
    peak: bool = False


@dataclass(frozen=True)
class Served:
    """What became of a packet. Of one that was not judged, the generation and the verdict are 0.

    `kind` is "discarded", "answered" (by a check of its header) or "judged". `status` is the reply's; of a discarded
    packet it is why, 1 to 4. `room` is how many entries the journal of its bank then still takes: at 0 the bank carries
    no further command out (status 1) until `rotate`. `found` is what a scrub before it found, "whole", "mended" or "withdrawn", and
    `found_slot` at which slot; both are None if no scrub was due (`scrub_each`).
    """
    kind: str
    status: int
    reply: Optional[bytes]
    generation: int
    verdict: int
    command: Optional[str]
    place: Optional[str]
    extended: int
    address: int
    length: int
    room: int
    found: Optional[str] = None
    found_slot: Optional[int] = None


@dataclass(frozen=True)
class Scrubbed:
    """What a scrub found: the slots whose programs were mended, those that are withdrawn, and whether slot 3 was restored; whether the
    node's sizes are others; the banks whose journals have a damaged entry, and the place of the first one. `count` says that a number of
    `scrub_each` is another: call it again. `short` says that a slot is withdrawn since memory was refused: scrub again."""
    mended: tuple[int, ...]
    withdrawn: tuple[int, ...]
    restored: bool
    sizes: bool
    journals: tuple[int, ...]
    first: int
    count: bool = False
    short: bool = False


def _places(bits: int) -> tuple[int, ...]:
    return tuple(place for place in range(8) if bits >> place & 1)


def _array(kind: type, rows: Sequence[tuple]):
    """Structs side by side, and one where there is none: no pointer is null."""
    return (kind * max(len(rows), 1))(*(kind(*row) for row in rows))


def verify(image: bytes, maps: Sequence[Map] = ()) -> None:
    """Verifies that a program may judge in a node with these maps. If it may not, this raises NodeFault."""
    why = c.Why()
    rows = _array(c.MapConfig, [(row.cells, row.peak) for row in maps])
    code = c.library().sandbar_verify(rows, len(maps), image, len(image), byref(why))
    if code:
        raise NodeFault(code, why)


def _why_not(image: bytes, maps: Sequence[MapPart]) -> Optional[str]:
    """Why a program may not judge in the node of a file, or None."""
    try:
        verify(image, [Map(row.cells, row.peak) for row in maps])
    except NodeFault as fault:
        if fault.code not in (_BAD_IMAGE, _REFUSED):
            raise
        return f"{'image fault ' if fault.code == _BAD_IMAGE else 'refused V'}{fault.why} slot {fault.slot}"
    return None


class Node:
    """An RMAP target. One call at a time: who shares it between threads puts a lock round each."""

    def __init__(self, banks: Sequence[Bank] = (Bank(),), maps: Sequence[Map] = (), image: bytes = YES, *,
                 address: int = 0xFE, ports: int = 1):
        self._c, self._node, self._reply = c.library(), c.NodeHandle(), (c_uint8 * c.MAX_REPLY)()
        self._rooms, self._address = [bank.room for bank in banks], address
        _numbers(banks, maps, address, ports)
        why = c.Why()
        code = self._c.sandbar_open(
            byref(self._node), address, ports, _array(c.BankConfig, [(bank.base, bank.size, bank.room) for bank in banks]),
            len(banks), _array(c.MapConfig, [(row.cells, row.peak) for row in maps]), len(maps), image, len(image), byref(why))
        if code:
            raise NodeFault(code, why)

    @classmethod
    def from_file(cls, path: Union[str, Path]) -> Node:
        """Opens the node that a file says, with the contents of its banks, and its programs published."""
        return cls._of(read_node_file(path, _why_not))

    @classmethod
    def _of(cls, file: NodeFile) -> Node:
        banks = [Bank(bank.base, bank.size, bank.journal) for bank in file.banks]
        maps = [Map(row.cells, row.peak) for row in file.maps]
        node = cls(banks, maps, YES if file.program is None else file.program, address=file.address, ports=file.ports)
        for number, bank in enumerate(file.banks):
            if bank.contents:
                node.poke(bank.base, bank.contents, number)
        for number, row in enumerate(file.publishes, 1):
            try:
                node.publish(row.image, row.slot)
            except NodeFault as fault:
                raise file.fault(NOT_PUBLISHED, f"publish {number} image: {fault}") from None
        return node

    def publish(self, image: bytes, slot: int) -> None:
        """Publishes the program of an image for a slot, without a packet. It has the next generation, and judges from the next
        command on. If it may not judge, this raises NodeFault, and the node stays as it is."""
        why = c.Why()
        code = self._c.sandbar_publish(byref(self._node), _byte("slot", slot), image, len(image), byref(why))
        if code:
            raise NodeFault(code, why)

    def _done(self, code: int) -> None:
        if code:
            raise NodeFault(code)

    def serve(self, packet: bytes, port: int = 0, end: str = "EOP") -> Served:
        """Serves a packet, whole, whose first byte is the target's address, and says what became of it."""
        told = c.ServedRecord()
        self._done(self._c.sandbar_serve(byref(self._node), _byte("port", port), bytes(packet), len(packet), _ENDS[end],
                                         self._reply, c.MAX_REPLY, byref(told)))
        reply = bytes(self._reply[:told.reply_length]) if told.reply_length else None
        return Served(_KINDS[told.kind], told.status, reply, told.generation, told.verdict, _COMMANDS[told.command],
                      _PLACES[told.place], told.extended, told.address, told.length, told.room, _FOUND[told.found],
                      told.found_slot if told.found else None)

    def ask(self, packet: bytes, port: int = 0) -> Optional[bytes]:
        """The reply to a packet, or None where none is due."""
        return self.serve(packet, port).reply

    def load(self, image: bytes, slots: Union[str, int, Iterable[int]] = "all", port: int = 0, **fields: int) -> list[int]:
        """Loads an image into slots by packets, as `load` does, and gives the generation of each. If a load is not carried out, this
        raises LoadFault with the words of its load result."""
        return load(self, image, slots, port, **{"address": self._address, **fields})

    def journal(self, bank: int = 0) -> list[Union[Entry, Damaged]]:
        """The entries of the journal of a bank, oldest first. They stay there. For one that a flipped bit damaged there is a `Damaged`
        with its place."""
        return [self._entry(bank, place) for place in range(self._journal(bank).entries)]

    @property
    def loaded(self) -> int:
        """How many programs were loaded."""
        return self._journal(0).loaded

    def _journal(self, bank: int) -> c.JournalRecord:
        told = c.JournalRecord()
        self._done(self._c.sandbar_journal_of(byref(self._node), _byte("bank", bank), byref(told)))
        return told

    def _entry(self, bank: int, place: int) -> Union[Entry, Damaged]:
        packet, told = (c_uint8 * c.MAX_PACKET)(), c.EntryRecord()
        code = self._c.sandbar_entry_at(byref(self._node), bank, place, packet, c.MAX_PACKET, byref(told))
        if code == _DAMAGED:
            return Damaged(place, bank)
        self._done(code)
        end = "EEP" if told.end else "EOP"
        return Entry(told.port, told.number, told.generation, told.verdict, told.status, bytes(packet[:told.packet_length]), end, bank)

    def rotate(self, bank: int = 0) -> list[Union[Entry, Damaged]]:
        """Begins a new journal at a bank, and gives the entries of the old one. A damaged entry does not stop it."""
        entries = self.journal(bank)
        self._done(self._c.sandbar_rotate(byref(self._node), bank, self._rooms[bank]))
        return entries

    def peek(self, address: int, length: int, bank: int = 0) -> bytes:
        """Bytes of a bank, read by the instrument: no command, and no entry."""
        room = (c_uint8 * max(length, 1))()
        self._done(self._c.sandbar_peek(byref(self._node), _byte("bank", bank), _word("address", address), room, length))
        return bytes(room[:length])

    def poke(self, address: int, data: bytes, bank: int = 0) -> list[Union[Entry, Damaged]]:
        """Puts bytes into a bank, as the instrument does. No entry has it, so the bank gets a new journal; the
        entries of the old one come back."""
        entries = self.journal(bank)
        self._done(self._c.sandbar_poke(byref(self._node), bank, _word("address", address), bytes(data), len(data),
                                        self._rooms[bank]))
        return entries

    def word(self, map: int, cell: int) -> int:
        """The word of a cell: how many tickets were drawn from it, or the greatest number that was shown to a peak."""
        told = c_uint64()
        self._done(self._c.sandbar_word(byref(self._node), _byte("map", map), _checked("cell", cell, 0xFFFF), byref(told)))
        return told.value

    def scrub(self, image: bytes = b"") -> Scrubbed:
        """Compares each slot's program with the sum that was kept of it. A program that differs is made again, or its slot is withdrawn.
        The program of an image that is given is published for slot 3 if that is withdrawn. Of sizes and journals it says what differs."""
        told = c.ScrubbedRecord()
        code = self._c.sandbar_scrub(byref(self._node), _ALL, image, len(image), byref(told))
        if code != _NO_MEMORY:
            self._done(code)
        return Scrubbed(_places(told.mended), _places(told.withdrawn), bool(told.restored), told.sizes == _SIZES_DIFFER,
                        _places(told.journals), told.first, told.sizes == _COUNT_DIFFERS, code == _NO_MEMORY)

    def scrub_each(self, packets: int) -> None:
        """From now on scrubs the program that judges a packet before each packet of so many; before none where it is 0."""
        self._done(self._c.sandbar_scrub_each(byref(self._node), _checked("packets", packets, 0xFFFFFFFF)))

    def close(self) -> None:
        """Gives all memory back. Closing twice does nothing."""
        self._c.sandbar_close(byref(self._node))

    def __enter__(self) -> Node:
        return self

    def __exit__(self, *_: object) -> None:
        self.close()

    def __del__(self) -> None:
        if hasattr(self, "_node"):
            self.close()


def _checked(name: str, value: int, most: int) -> int:
    """A number that fits: ctypes would cut it."""
    if not 0 <= value <= most:
        raise ValueError(f"{name} is {value}: wanted 0 to {most}")
    return value


def _byte(name: str, value: int) -> int:
    return _checked(name, value, 0xFF)


def _word(name: str, value: int) -> int:
    return _checked(name, value, 0xFFFFFFFF)


def _numbers(banks: Sequence[Bank], maps: Sequence[Map], address: int, ports: int) -> None:
    _byte("address", address)
    _byte("ports", ports)
    for bank in banks:
        for name in ("base", "size", "room"):
            _word(name, getattr(bank, name))
    for row in maps:
        _checked("cells", row.cells, 0xFFFF)
