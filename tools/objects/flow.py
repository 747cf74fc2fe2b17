"""How a run goes through a function: its blocks."""
from __future__ import annotations

from dataclasses import dataclass

from objects.insns import ALU, ALU32, BY_REGISTER, EXIT, JMP32, MOV, TURN, Insn
from objects.refusal import Refusal


@dataclass
class Block:
    """Instructions that are run one after the other. `last` is a comparison or an exit, where there is one. `next` has the blocks to
    which it leads, by their first slots; of a comparison the first is for where it does not hold."""
    body: list[Insn]
    last: Insn | None
    next: list[int]

    def end(self) -> Insn:
        return self.last or self.body[-1]


Blocks = dict[int, Block]


def blocks_of(insns: list[Insn]) -> Blocks:
    """The blocks of a function, each by its first slot."""
    starts = {it.slot for it in insns}
    leaders = set()
    for it in insns:
        if it.target is not None and it.target not in starts:
            raise Refusal("a jump out of the function", "give the object as it was compiled", it.slot)
        if it.target is not None or it.op == EXIT:
            leaders |= {it.target, it.slot + 1}
    blocks: Blocks = {}
    body: list[Insn] = []
    for it in insns:
        body.append(it)
        after = it.slot + it.slots
        if after in leaders or after not in starts:
            blocks[body[0].slot] = block_of(body, after)
            body = []
    return blocks


def block_of(body: list[Insn], after: int) -> Block:
    body = [part for it in body for part in parts_of(it)]
    last = body[-1]
    if last.op == EXIT:
        return Block(body[:-1], last, [])
    if last.compares:
        return Block(body[:-1], last, [after, last.target])
    return Block(body, None, [after]) if last.target is None else Block(body[:-1], None, [last.target])


def parts_of(insn: Insn) -> list[Insn]:
    """The instructions that an instruction stands for."""
    if insn.op != TURN or not insn.src:
        return [insn]
    return [Insn(insn.slot, MOV << 4 | BY_REGISTER | ALU, insn.dst, insn.src, 0, 0), insn._replace(src=0)]


def shorten(blocks: Blocks) -> None:
    """Leads past blocks that do nothing, and drops comparisons both of whose ways lead to one block."""
    for block in blocks.values():
        block.next = [past(blocks, at) for at in block.next]
        if len(block.next) == 2 and block.next[0] == block.next[1]:
            block.last, block.next = None, block.next[:1]


def thread(blocks: Blocks) -> None:
    """Leads past comparisons of a register with a number, and nothing before them, from where a number was put into that register: a
    compiler may keep in one whether a loop goes on."""
    changed = True
    while changed:
        changed = False
        for block in blocks.values():
            for place, way in enumerate(block.next):
                test = blocks.get(way)
                if test is None or test.body or test.last is None or not test.last.compares or test.last.by_register:
                    continue
                known = number_in(block.body, test.last.dst)
                holds = None if known is None else compared(test.last, known)
                to = None if holds is None else test.next[1 if holds else 0]
                if to is not None and to != way:
                    block.next[place] = to
                    changed = True


def number_in(body: list[Insn], register: int) -> int | None:
    """The number that a register has after instructions that put one into it."""
    for it in reversed(body):
        if register in it.writes():
            if it.family not in (ALU, ALU32) or it.code != MOV or it.by_register:
                return None
            return it.imm & (0xFFFFFFFF if it.family == ALU32 else (1 << 64) - 1)
    return None


def compared(test: Insn, number: int) -> bool | None:
    """Whether a comparison for equality with a number holds; None of another comparison."""
    mask = 0xFFFFFFFF if test.family == JMP32 else (1 << 64) - 1
    equal = number & mask == test.imm & mask
    return {1: equal, 5: not equal}.get(test.code)


def past(blocks: Blocks, at: int) -> int:
    """The block to which one leads that does nothing, or itself."""
    seen = set()
    while at in blocks and at not in seen and not blocks[at].body and not blocks[at].last:
        seen.add(at)
        at = blocks[at].next[0]
    return at


def walked(blocks: Blocks) -> tuple[Blocks, list[tuple[int, int]]]:
    """The blocks to which a run may come, and the ways that lead back to one that is not left yet."""
    if 0 not in blocks:
        raise Refusal("the function is empty", "return a verdict")
    open_blocks, ways = [0], [iter(blocks[0].next)]
    seen, left, back = {0}, set(), []
    while open_blocks:
        way = next(ways[-1], None)
        if way is None:
            left.add(open_blocks.pop())
            ways.pop()
        elif way not in blocks:
            raise Refusal("the function ends without a verdict", "return one on each way", last_slot(blocks))
        elif way not in seen:
            seen.add(way)
            open_blocks.append(way)
            ways.append(iter(blocks[way].next))
        elif way not in left:
            back.append((open_blocks[-1], way))
    return {at: block for at, block in blocks.items() if at in seen}, back


def new_block(blocks: Blocks, block: Block) -> int:
    """Puts a block beside the others."""
    at = max(last_slot(blocks), max(blocks)) + 1
    blocks[at] = block
    return at


def last_slot(blocks: Blocks) -> int:
    return max(it.slot for block in blocks.values() for it in (*block.body, *filter(None, [block.last])))
