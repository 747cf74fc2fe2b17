"""Entries of journals, and the file into which `tools/share` writes them (docs/LIVE.md, *One node for several clients*)."""
from __future__ import annotations

from dataclasses import asdict, dataclass, field
from datetime import datetime, timezone
from pathlib import Path
from typing import Iterator, Optional, Union

_ENDS = ("EOP", "EEP")
_TIME = "%Y-%m-%dT%H:%M:%S.%fZ"


@dataclass(frozen=True)
class Entry:
    """An entry of a journal: a command that was judged. `bank` is the number of its bank, which is its extended address."""
    port: int
    number: int
    generation: int
    verdict: int
    status: int
    packet: bytes
    end: str = "EOP"
    bank: int = 0

    def as_dict(self) -> dict[str, Union[int, str]]:
        """Its parts by name, the packet in hexadecimal digits in upper case."""
        return {**asdict(self), "packet": self.packet.hex().upper()}


@dataclass(frozen=True)
class Damaged:
    """An entry that is not as it was made, since a bit of it flipped in memory. Its place in the journal of its bank is known to a node
    in this process, and to no line."""
    place: Optional[int] = None
    bank: int = 0

    def as_dict(self) -> dict[str, Union[int, str, None]]:
        return {"damaged": True, **asdict(self)}


def _number(word: str) -> int:
    if not (word.isascii() and word.isdigit()) or len(word) > 20:
        raise ValueError(f"no number: {word[:30]}")
    return int(word)


def entry_of(line: str, bank: int = 0) -> Entry:
    """The entry that a line has: `journal PORT NUMBER GENERATION VERDICT STATUS HEX EOP`, of that bank, or `entry HH` with the same
    words, of the bank of extended address HH. What is no such line raises ValueError."""
    word, *rest = line.split()
    if word == "entry" and rest:
        bank = int(rest.pop(0), 16)
    if word not in ("journal", "entry") or len(rest) not in (6, 7) or rest[-1] not in _ENDS:
        raise ValueError(f"no entry: {line[:80]}")
    port, number, generation, verdict, status = map(_number, rest[:5])
    return Entry(port, number, generation, verdict, status, bytes.fromhex(rest[5] if len(rest) == 7 else ""), rest[-1], bank)


def damaged_of(line: str, bank: int = 0) -> Optional[Damaged]:
    """What a line `journal damaged` or `entry HH damaged` says, or None for another line."""
    words = line.split()
    if words == ["journal", "damaged"]:
        return Damaged(bank=bank)
    return Damaged(bank=int(words[1], 16)) if len(words) == 3 and words[0] == "entry" and words[2] == "damaged" else None


@dataclass(frozen=True)
class Filed:
    """What a line of the file says: when the packet came, in UTC; how many times a bridge had begun before it; and the entry."""
    time: datetime
    run: int
    entry: Union[Entry, Damaged]

    def as_dict(self) -> dict[str, Union[int, str, bool, None]]:
        return {"time": self.time.strftime(_TIME)[:-4] + "Z", "run": self.run, **self.entry.as_dict()}


@dataclass
class JournalFile:
    """The entries of a file, in its order, and the lines that are none: the number and the text of each. A last line without a line
    feed is one of them, since a bridge that was stopped wrote a part of it only."""
    rows: list[Filed] = field(default_factory=list)
    broken: list[tuple[int, str]] = field(default_factory=list)

    def __iter__(self) -> Iterator[Filed]:
        return iter(self.rows)

    def __len__(self) -> int:
        return len(self.rows)


def journal_file(path: Union[str, Path]) -> JournalFile:
    """Reads the file that `tools/share --journal` wrote. A line `TIME begin ..` begins the next run: the node after it is a fresh one."""
    found = JournalFile()
    run = bank = 0
    with open(path, encoding="ascii", errors="replace", newline="\n") as lines:
        for number, line in enumerate(lines, 1):
            text = line.removesuffix("\n")
            try:
                when, words = _parts(text, line)
                if words[0] == "begin":
                    run, bank = run + 1, 0
                elif words[0] == "bank":
                    bank = int(words[1], 16)
                elif not _is_beside(words):
                    rest = " ".join(words)
                    found.rows.append(Filed(when, run, damaged_of(rest, bank) or entry_of(rest, bank)))
            except (ValueError, IndexError):
                found.broken.append((number, text))
    return found


def _parts(text: str, line: str) -> tuple[datetime, list[str]]:
    """The time of a line, and its words after it."""
    when, *words = text.split(" ")
    if not words or not line.endswith("\n"):
        raise ValueError("a part of a line")
    return datetime.strptime(when, _TIME).replace(tzinfo=timezone.utc), words


def _is_beside(words: list[str]) -> bool:
    """Whether the words are of a scrub, or of how many entries came, and so of no entry."""
    return words[:2] == ["journal", "scrub"] or words[0] == "journal" and words[-1] == "entries"
