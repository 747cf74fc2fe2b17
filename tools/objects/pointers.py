"""Which registers may be pointers, and what follows of it: sums, and the version of the format."""
from __future__ import annotations

from objects.flow import Block, Blocks
from objects.insns import ADD, ALU, ALU32, CALL, LD, LDX, STX, SUB, Insn
from objects.refusal import Refusal

# What a register may be a pointer to; 0 is a number.
FRONT, TAIL, STACK, MAP = 1, 2, 4, 8
Kinds = tuple[int, ...]
ENTRY: Kinds = (0, FRONT, TAIL, 0, 0, 0, 0, 0, 0, 0, STACK)

# The registers that a program may write.
WRITABLE = range(10)

ADD_REGISTER, MOVE_REGISTER = 0x0F, 0xBF


def kinds_after(kinds: Kinds, insn: Insn) -> Kinds:
    known = list(kinds)
    if insn.op == CALL:
        known[:6] = [0] * 6
    elif insn.map is not None:
        known[insn.dst] = MAP
    elif insn.moves():
        known[insn.dst] = kinds[insn.src]
    elif insn.family == ALU and insn.code in (ADD, SUB):
        known[insn.dst] |= kinds[insn.src] if insn.by_register else 0
    elif insn.family in (LD, LDX, ALU32, ALU):
        known[insn.dst] = 0
    return tuple(known)


def known_in(body: list[Insn], kinds: Kinds) -> list[Kinds]:
    """What registers may point to before each instruction, and after the last."""
    known = [kinds]
    for it in body:
        known.append(kinds_after(known[-1], it))
    return known


def kinds_at(blocks: Blocks) -> dict[int, Kinds]:
    """What registers may point to where each block begins."""
    found: dict[int, Kinds] = {0: ENTRY}
    left = [0]
    while left:
        at = left.pop()
        kinds = known_in(blocks[at].body, found[at])[-1]
        for way in blocks[at].next:
            joined = tuple(a | b for a, b in zip(found.get(way, (0,) * len(kinds)), kinds))
            if found.get(way) != joined:
                found[way] = joined
                left.append(way)
    return found


def wanted_before(insn: Insn, wanted: set[int]) -> set[int]:
    return wanted - insn.writes() | insn.reads()


def wanted_in(block: Block, wanted: set[int]) -> list[set[int]]:
    """The registers whose values may still be read: where the block begins, and after each instruction of its body."""
    found = [wanted_before(block.last, wanted) if block.last else wanted]
    for it in reversed(block.body):
        found.append(wanted_before(it, found[-1]))
    return found[::-1]


def wanted_after(blocks: Blocks) -> dict[int, set[int]]:
    """The registers whose values may still be read after each block."""
    found: dict[int, set[int]] = {at: set() for at in blocks}
    changed = True
    while changed:
        changed = False
        for at, block in blocks.items():
            wanted = set().union(*(wanted_in(blocks[way], found[way])[0] for way in block.next))
            changed = changed or wanted != found[at]
            found[at] = wanted
    return found


def put_pointers_first(blocks: Blocks) -> None:
    """Turns each sum of a number, to which a compiler adds a pointer, round: here a pointer is moved by a number."""
    known, after = kinds_at(blocks), wanted_after(blocks)
    for at, block in blocks.items():
        kinds, wanted = known_in(block.body, known[at]), wanted_in(block, after[at])
        body: list[Insn] = []
        for place, it in enumerate(block.body):
            if it.op == ADD_REGISTER and not kinds[place][it.dst] and kinds[place][it.src] & ~MAP:
                body = with_sum(body, it, wanted[place + 1])
            else:
                body.append(it)
        block.body = body


def with_sum(body: list[Insn], add: Insn, wanted: set[int]) -> list[Insn]:
    """What comes before `add r, p`, of a number r and a pointer p, and the sum. Where r was copied just before, p is copied in its
    place; else the sum is made in a register whose value is not read afterwards. Where there is none, the sum stays as it is, and
    the verifier refuses it."""
    move = add._replace(op=MOVE_REGISTER)
    copy = body[-1] if body else add
    if copy.moves() and copy.dst == add.dst != copy.src:
        return [*body[:-1], move._replace(slot=copy.slot), add._replace(src=copy.src)]
    free = [at for at in (add.src, *WRITABLE) if at in WRITABLE and at not in wanted | {add.dst}]
    if not free:
        return [*body, add]
    first = [] if free[0] == add.src else [move._replace(dst=free[0])]
    return [*body, *first, add._replace(dst=free[0], src=add.dst), move._replace(src=free[0])]


def version_of(blocks: Blocks) -> int:
    """The version of the format that the program wants. A pointer cannot be kept on the stack in either."""
    version = 1
    for at, kinds in sorted(kinds_at(blocks).items()):
        for it, known in zip(blocks[at].body, known_in(blocks[at].body, kinds)):
            if it.is_double(STX) and known[it.src]:
                raise kept(blocks, it, known[it.src])
            if it.op == CALL and it.imm == 3 or it.is_double(LDX) and known[it.src] & STACK:
                version = 2
    return version


def kept(blocks: Blocks, store: Insn, kinds: int) -> Refusal:
    """The refusal of a pointer that is kept on the stack: where it is taken from there again, and what it points to."""
    names = {FRONT: "the front of the header", TAIL: "the tail of the header", STACK: "the stack", MAP: "a map"}
    what = " or ".join(name for kind, name in names.items() if kinds & kind)
    again = sorted(it.slot for block in blocks.values() for it in block.body
                   if it.is_double(LDX) and (it.src, it.off) == (store.dst, store.off))
    if not again:
        return Refusal(f"a pointer to {what} is kept on the stack", "read what it points to before, or use fewer values at once", store.slot)
    return Refusal(f"a pointer to {what} was kept on the stack until here, over a call or for want of registers",
                   "read what is wanted of it into a variable before the first call, or use fewer values at once", again[0])
