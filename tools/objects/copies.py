"""Comparisons of copies: a compiler may compare one register and go on with another that has the same number, or one that is so much
more, of which the verifier then knows nothing. Where nobody wants the first any more, the other is compared; of one that is so much more
its range is said, by comparisons that always hold."""
from __future__ import annotations

from typing import NamedTuple

from objects.flow import Block, Blocks, new_block
from objects.insns import ADD, ALU, ALU32, EXIT, JMP, JMP32, MOV, Insn
from objects.pointers import WRITABLE, kinds_at, known_in, wanted_after, wanted_in

# Codes of comparisons without a sign, and the verdict of a run for which one that always holds does not.
MORE, LESS = 2, 10
UNSIGNED = {2: (1, True), 3: (0, True), 10: (-1, False), 11: (0, False)}
DENIAL = 10


class Pair(NamedTuple):
    """Two registers of which the first is so much more than the other: in the lower 32 bits, or, if `whole`, in all."""
    one: int
    other: int
    more: int
    whole: bool


Pairs = frozenset[Pair]


def pairs_after(pairs: Pairs, insn: Insn) -> Pairs:
    """The pairs after an instruction."""
    if insn.family in (ALU, ALU32) and insn.code == ADD and not insn.by_register:
        return frozenset(moved(it, insn) for it in pairs)
    written = insn.writes()
    kept = {it for it in pairs if not {it.one, it.other} & written}
    if (insn.moves(ALU) or insn.moves(ALU32)) and insn.dst != insn.src and insn.src in WRITABLE:
        whole = insn.family == ALU
        same = [(insn.src, 0, whole)] + [(it.other, it.more, whole and it.whole) for it in kept if it.one == insn.src]
        kept |= {Pair(insn.dst, other, more, is_whole) for other, more, is_whole in same}
        kept |= {Pair(other, insn.dst, -more, is_whole) for other, more, is_whole in same}
    return frozenset(kept)


def moved(pair: Pair, add: Insn) -> Pair:
    """A pair after a number was added to a register."""
    more = pair.more + (add.imm if pair.one == add.dst else -add.imm if pair.other == add.dst else 0)
    named = add.dst in (pair.one, pair.other)
    return pair._replace(more=more, whole=pair.whole and (add.family == ALU or not named))


def pairs_at(blocks: Blocks) -> dict[int, Pairs]:
    """The pairs at the end of each block, before its comparison: those that are there on all ways."""
    begins: dict[int, Pairs] = {0: frozenset()}
    ends: dict[int, Pairs] = {}
    left = [0]
    while left:
        at = left.pop()
        pairs = begins[at]
        for it in blocks[at].body:
            pairs = pairs_after(pairs, it)
        ends[at] = pairs
        for way in blocks[at].next:
            met = pairs if way not in begins else pairs & begins[way]
            if begins.get(way) != met:
                begins[way] = met
                left.append(way)
    return ends


def compare_what_goes_on(blocks: Blocks) -> None:
    """Compares in the place of each register that nobody wants any more one with the same number that somebody wants."""
    pairs = pairs_at(blocks)
    changed = True
    while changed:
        changed = False
        wanted = wanted_after(blocks)
        for at, block in blocks.items():
            if block.last is None or not block.last.compares:
                continue
            last = block.last
            last = last._replace(dst=going_on(last.dst, last, pairs[at], wanted[at]))
            if last.by_register:
                last = last._replace(src=going_on(last.src, last, pairs[at], wanted[at]))
            changed = changed or last != block.last
            block.last = last


def going_on(register: int, last: Insn, pairs: Pairs, wanted: set[int]) -> int:
    """The register to be compared in the place of this one, or itself."""
    others = [it.other for it in pairs if it.one == register and not it.more and it.other in wanted and (it.whole or last.family == JMP32)]
    return min(others, default=register) if register not in wanted else register


def say_ranges(blocks: Blocks) -> None:
    """Says the range of each register that somebody wants, where one that is so much more was compared with a number."""
    ends, wanted = pairs_at(blocks), wanted_after(blocks)
    kinds = {at: known_in(blocks[at].body, known)[-1] for at, known in kinds_at(blocks).items()}
    for at, block in list(blocks.items()):
        if block.last is None or block.last.by_register or block.last.code not in UNSIGNED:
            continue
        last = block.last
        for place, way in enumerate(block.next):
            begun = wanted_in(blocks[way], wanted[way])[0]
            for pair in sorted(ends[at]):
                if pair.one != last.dst or not pair.more or last.family == JMP and not pair.whole:
                    continue
                if pair.other not in begun or kinds[at][pair.other]:
                    continue
                known = range_of(last, bool(place), pair.more)
                if known is not None:
                    block.next[place] = said(blocks, last, pair.other, known, block.next[place])


def range_of(last: Insn, holds: bool, more: int) -> tuple[int, int] | None:
    """The range of a register where one that is so much more was compared; None if it is in two pieces, or too far up."""
    bits = 32 if last.family == JMP32 else 64
    add, is_above = UNSIGNED[last.code]
    edge = (last.imm & (1 << bits) - 1) + add
    least, most = (edge, (1 << bits) - 1) if is_above else (0, edge)
    if not holds:
        least, most = (0, least - 1) if is_above else (most + 1, (1 << bits) - 1)
    if least > most:
        return None
    least, most = (least - more) % (1 << bits), (most - more) % (1 << bits)
    return (least, most) if least <= most < 1 << 31 else None


def said(blocks: Blocks, last: Insn, register: int, known: tuple[int, int], way: int) -> int:
    """New blocks that compare a register with both ends of its range, and then lead on."""
    denial = new_block(blocks, Block([Insn(last.slot, MOV << 4 | ALU, 0, 0, 0, DENIAL)], Insn(last.slot, EXIT, 0, 0, 0, 0), []))
    for code, number in ((MORE, known[1]), (LESS, known[0])):
        if number or code == MORE:
            way = new_block(blocks, Block([], Insn(last.slot, code << 4 | last.family, register, 0, 0, number), [way, denial]))
    return way
