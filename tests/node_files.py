"""The files of nodes in tests/node_files.txt, which says how they are written."""
from __future__ import annotations

import re
from dataclasses import dataclass
from pathlib import Path

LIST = Path(__file__).resolve().parent / "node_files.txt"

#: What stands for a code if there is no fault, and if the file itself cannot be read.
GOOD, UNREAD = "good", "unread"

_HEAD = re.compile(r"^== (\d|good|unread)(!?) (.+)\n", re.M)
_BESIDE = re.compile(r"^-- (\S+)[ ]?(.*)$", re.M)
_WRITTEN = re.compile(r"\{\{(?:([0-9A-F]{2})|(.+?) \* (\d+))\}\}", re.S)
_NO_END = "{{}}"


@dataclass(frozen=True)
class NodeText:
    """A node's file, and the answer to it: a code of faults, `GOOD` or `UNREAD`; and whether only a library can give it."""
    title: str
    content: bytes
    answer: str
    wants_library: bool


def _expanded(text: str) -> str:
    return _WRITTEN.sub(lambda found: chr(int(found[1], 16)) if found[1] else found[2] * int(found[3]), text)


def _content(text: str) -> bytes:
    """The bytes of a file, without the empty lines after it."""
    text = text.strip("\n") + "\n" if text.strip("\n") else ""
    return _expanded(text.removesuffix(_NO_END + "\n")).encode("latin-1")


def beside() -> dict[str, bytes]:
    """The files beside each node's file."""
    text = LIST.read_text(encoding="ascii")
    return {name: bytes.fromhex(_expanded(digits)) for name, digits in _BESIDE.findall(text)}


def node_files() -> list[NodeText]:
    """The node's files of the list."""
    _, *parts = _HEAD.split(LIST.read_text(encoding="ascii"))
    return [NodeText(title, _content(text), answer, bool(mark))
            for answer, mark, title, text in zip(*(parts[first::4] for first in range(4)))]
