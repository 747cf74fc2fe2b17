"""From a slot of an image to a line of C: what the comments of its text say, `; FILE:LINE TEXT` above the instructions of the line."""
from __future__ import annotations

import re
from typing import NamedTuple

# Instructions of two slots.
WIDE = ("lddw", "ldmap", "ldimm")


class Line(NamedTuple):
    """A line of a text, and the comment that says of which line of C it is."""
    number: int
    said: str


def lines_of(text: str) -> dict[int, Line]:
    """The line of each slot of an instruction."""
    found, slot, said = {}, 0, ""
    for number, line in enumerate(text.splitlines(), 1):
        words, _, comment = line.partition(";")
        comment = comment.strip()
        if re.match(r"\S+:\d+( |$)", comment):
            said = comment
        words = words.split()
        if words and not words[0].startswith(".") and not words[0].endswith(":"):
            found[slot] = Line(number, said)
            slot += 2 if words[0] in WIDE else 1
    return found


def maps_of(text: str) -> str:
    return next(iter(re.findall(r"^; maps (\S+)$", text, re.M)), "")


def with_lines(said: list[str], text: str, name: str) -> list[str]:
    """What `why` says, with the line of the text and of C after each line that begins with a slot."""
    known = lines_of(text)
    found = []
    for line in said:
        found.append(line)
        slot = re.match(r"slot (\d+): ", line)
        if slot and int(slot[1]) in known:
            at = known[int(slot[1])]
            file, _, rest = at.said.partition(" ")
            found.append(f"    {file}: {rest}" if at.said else f"    {name}:{at.number}")
    return found
