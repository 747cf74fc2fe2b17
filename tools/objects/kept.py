"""Pointers that a compiler keeps on the stack, where a program here can keep none: each is made anew when it is taken from there.

For that the header is copied to the stack before the first instruction, so that a pointer into it is so far from the stack's end, which
no instruction changes. What a pointer points to must be known by the instructions that put it there, whichever way a run took.
"""
from __future__ import annotations

from objects.flow import Blocks
from objects.insns import ADD, ALU, BY_REGISTER, FRAME, LDX, MEM, MOV, ST, STX, WIDE, Insn

# The registers of the front and the tail of the header, their bytes, and how many of them a load of a word takes.
FRONT, TAIL = 1, 2
BYTES = {FRONT: 4, TAIL: 12}
HEADER_BYTES = 16
WORD = 4
LOAD_WORD, STORE_WORD = MEM | LDX, MEM | STX

# What each register points to where the function begins: the register, and how many bytes after it. A map has a number below 0.
Place = tuple[int, int]
Places = dict[int, Place]
ENTRY: Places = {1: (1, 0), 2: (2, 0), FRAME: (FRAME, 0)}


def place_after(places: Places, insn: Insn) -> Places:
    """Where registers, and words of the stack by their offsets, which are negative, point to after an instruction."""
    if insn.family in (ST, STX):
        near = insn.dst == FRAME
        after = {at: place for at, place in places.items() if at >= 0 or near and not -8 < at - insn.off < 8}
        if near and insn.is_double(STX) and insn.src in places:
            after[insn.off] = places[insn.src]
        return after
    found = None
    if insn.map is not None:
        found = (-1 - insn.map, 0)
    elif insn.moves(ALU):
        found = places.get(insn.src)
    elif insn.family == ALU and insn.code == ADD and not insn.by_register and insn.dst in places:
        found = (places[insn.dst][0], places[insn.dst][1] + insn.imm)
    elif insn.is_double(LDX) and insn.src == FRAME:
        found = places.get(insn.off)
    after = {at: place for at, place in places.items() if at not in insn.writes()}
    return {**after, insn.dst: found} if found is not None else after


def places_at(blocks: Blocks) -> tuple[dict[int, Places], dict[int, Places]]:
    """Where pointers point to at the beginning of each block, and at its end."""
    begins: dict[int, Places] = {0: ENTRY}
    ends: dict[int, Places] = {}
    left = [0]
    while left:
        at = left.pop()
        places = begins[at]
        for it in blocks[at].body:
            places = place_after(places, it)
        ends[at] = places
        for way in blocks[at].next:
            met = places if way not in begins else {it: place for it, place in begins[way].items() if places.get(it) == place}
            if begins.get(way) != met:
                begins[way] = met
                left.append(way)
    return begins, ends


def keep_none(blocks: Blocks, base: int) -> list[Insn]:
    """Makes each pointer anew that is taken from the stack; gives what copies the header to these offsets before the first instruction."""
    begins, _ = places_at(blocks)
    for at, block in blocks.items():
        places = begins[at]
        body = []
        for it in block.body:
            if it.is_double(STX) and it.dst == FRAME and it.src in places:
                pass
            elif it.is_double(LDX) and it.src == FRAME and it.off in places:
                body += again(it, places[it.off], base)
            else:
                body.append(it)
            places = place_after(places, it)
        block.body = body
    return copy_of_header(base)


def again(load: Insn, place: Place, base: int) -> list[Insn]:
    """A pointer to a place, in the register of a load."""
    root, more = place
    if root < 0:
        return [Insn(load.slot, WIDE, load.dst, 5, 0, 0, map=-1 - root)]
    first = {FRONT: base, TAIL: base + BYTES[FRONT], FRAME: 0}[root]
    moved = Insn(load.slot, MOV << 4 | BY_REGISTER | ALU, load.dst, FRAME, 0, 0)
    return [moved, Insn(load.slot, ADD << 4 | ALU, load.dst, 0, 0, first + more)]


def copy_of_header(base: int) -> list[Insn]:
    """What copies the header to the stack, and makes its two registers point there."""
    found = []
    for register, first in ((FRONT, base), (TAIL, base + BYTES[FRONT])):
        for at in range(0, BYTES[register], WORD):
            found += [Insn(0, LOAD_WORD, 0, register, at, 0), Insn(0, STORE_WORD, FRAME, 0, first + at, 0)]
    for register, first in ((FRONT, base), (TAIL, base + BYTES[FRONT])):
        found += [Insn(0, MOV << 4 | BY_REGISTER | ALU, register, FRAME, 0, 0), Insn(0, ADD << 4 | ALU, register, 0, 0, first)]
    return found
