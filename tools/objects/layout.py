"""The order of blocks, and the text of a program."""
from __future__ import annotations

import os
from typing import Iterator, NamedTuple

from objects.elf import Line
from objects.flow import Block, Blocks
from objects.insns import GOTO, OPPOSITE, Insn, text_of
from objects.loops import Loop


def ordered(blocks: Blocks, loops: list[Loop], inside: set[int], head: int) -> list[int]:
    """The blocks of a loop, or of the whole function, so that all ways but those back lead forward and each loop is in one piece. The
    latch is the last of its loop, since all others of the loop lead to it."""
    inner = [it for it in loops if it.body < inside]
    outer = [it for it in inner if not any(it.body < other.body for other in inner)]
    bodies = {it.head: it.body for it in outer}
    stands = {at: at for at in inside}
    for at, body in bodies.items():
        stands.update(dict.fromkeys(body, at))
    waits: dict[int, set[int]] = {at: set() for at in stands.values()}
    for at in inside:
        for way in blocks[at].next:
            if way in inside and way != head and stands[way] != stands[at]:
                waits[stands[way]].add(stands[at])
    order: list[int] = []
    while waits:
        ready = [at for at, others in waits.items() if not others]
        wished = [at for at in (blocks[order[-1]].next if order else []) if at in ready]
        at = wished[0] if wished else min(ready)
        order += ordered(blocks, loops, bodies[at], at) if at in bodies else [at]
        del waits[at]
        for others in waits.values():
            others.discard(at)
    return order


class Item(NamedTuple):
    """An instruction in its place, and the block to which it jumps."""
    insn: Insn
    target: int | None = None


class Layout:
    """The instructions in their order: at which place each block begins, and where the loop of each head goes back."""

    def __init__(self, blocks: Blocks, loops: list[Loop]):
        self.items: list[Item] = []
        self.starts: dict[int, int] = {}
        self.backs: dict[int, int] = {}
        self.loops = loops
        heads = {it.latch: it.head for it in loops}
        order = ordered(blocks, loops, set(blocks), 0)
        for at, after in zip(order, [*order[1:], None]):
            self.starts[at] = len(self.items)
            self.items += [Item(it) for it in blocks[at].body]
            self.items += jumps(blocks[at], at, after, heads.get(at))
            if at in heads:
                self.backs[heads[at]] = max(place for place, it in enumerate(self.items) if it.target == heads[at])
        self.loops.sort(key=lambda it: self.starts[it.head])

    def places(self, loop: Loop) -> range:
        return range(self.starts[loop.head], self.backs[loop.head] + 1)

    def weights(self) -> list[int]:
        """How often each instruction is run at most."""
        weights = [1] * len(self.items)
        for loop in self.loops:
            for place in self.places(loop):
                weights[place] *= loop.bound or 1
        return weights

    def slots(self) -> int:
        return sum(it.insn.slots for it in self.items)

    def slot_of(self, block: int) -> int:
        """The slot of the image at which a block begins."""
        return sum(it.insn.slots for it in self.items[:self.starts[block]])

    def slot_lines(self) -> list[int]:
        """The slot of the function that each slot of the image came of."""
        return [it.insn.slot for it in self.items for _ in range(it.insn.slots)]

    def labels(self) -> dict[int, str]:
        """Names of places: `loop1` and `again1` of a loop, `L1`, `L2` and so on of where other jumps lead."""
        found = {}
        for number, loop in enumerate(self.loops, 1):
            found[self.starts[loop.head]] = f"loop{number}"
            found[self.backs[loop.head]] = f"again{number}"
        others = {self.starts[it.target] for it in self.items if it.target is not None} - set(found)
        return {**found, **{place: f"L{number}" for number, place in enumerate(sorted(others), 1)}}


def jumps(block: Block, at: int, after: int | None, back: int | None) -> list[Item]:
    """How a block ends that is laid out before this one; its way back, where it has one, has to be that of the comparison."""
    if not block.next:
        return [Item(block.last)]
    goes_on, *taken = block.next
    found = []
    if block.last is not None:
        last = block.last
        if (goes_on == back or taken[0] == after and taken[0] != back) and last.code in OPPOSITE:
            last = last._replace(op=OPPOSITE[last.code] << 4 | last.op & 15)
            goes_on, taken = taken[0], [goes_on]
        found.append(Item(last, taken[0]))
    if goes_on != after:
        slot = block.end().slot if block.last or block.body else at
        found.append(Item(Insn(slot, GOTO, 0, 0, 0, 0), goes_on))
    return found


class Source(NamedTuple):
    """The lines of C of a function that begins at a byte of its section, and the name of its file."""
    lines: list[Line]
    start: int
    file: str

    def line(self, slot: int) -> Line | None:
        at = self.start + 8 * slot
        return next((it for it in reversed(self.lines) if it.at <= at), None)

    def line_of_file(self, slot: int) -> Line | None:
        """The line of the file itself that is at a slot or comes next: where that of a header was put in."""
        line = self.line(slot)
        if line is None or os.path.basename(line.file) == self.file:
            return line
        return next((it for it in self.lines if it.at > self.start + 8 * slot and os.path.basename(it.file) == self.file), None)

    def comment(self, line: Line) -> str:
        """A line in words: its file, its number, and what stands there."""
        return f"; {os.path.basename(line.file) or self.file}:{line.number} {line.text}".rstrip()


def printed(layout: Layout, version: int, maps: str, source: Source) -> Iterator[str]:
    """The lines of the text of a program, with a comment where the line of C is another than before."""
    labels = layout.labels()
    if version != 1:
        yield f".version {version}"
    yield f".budget {sum(layout.weights())}"
    for loop in layout.loops:
        places = layout.places(loop)
        yield f".loop {labels[places[0]]}, {labels[places[-1]]}, {loop.bound or 1}, r{loop.register}"
    said = None
    for place, (insn, target) in enumerate(layout.items):
        if place in labels:
            yield f"{labels[place]}:"
        line = source.line(insn.slot)
        if line and (line.file, line.number) != said:
            said = (line.file, line.number)
            yield f"    {source.comment(line)}"
        yield f"    {text_of(insn, labels[layout.starts[target]] if target is not None else '')}"
    if maps:
        yield f"; maps {maps}"
