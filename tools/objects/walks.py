"""Registers that go on by one number in each round, and that the loop does not count by: a pointer that walks, a second index.

The verifier knows of a register at a loop's head what is so in all rounds, so it knows nothing of one that goes on. Where the counter
begins with the number of rounds, each of them is set at the beginning of a round by the counter. Of a pointer the place at which it ends
is put into a register of its own before the loop. A loop that ends where one pointer meets another gets a counter of its rounds, and
compares that: how far both are apart must be known by their beginnings.
"""
from __future__ import annotations

from dataclasses import dataclass

from objects.insns import ADD, ALU, BY_REGISTER, MOV, SUB, Insn
from objects.kept import Places, places_at
from objects.pointers import FRONT, STACK, TAIL, WRITABLE, kinds_at, wanted_after, wanted_in
from objects.upward import MAX_BOUND, Upward, after_round, counter_of, free_registers, round_of, test_at, test_of, values_in

# The farthest that a pointer goes in a round: it takes as many instructions to set it.
FARTHEST = 8

# The code of `jne`.
NOT_EQUAL = 5

# The opcodes of `jne r, 1` and `jeq r, 1`.
JNE, JEQ = 0x55, 0x15


@dataclass
class Walk:
    """A register that goes on by a step, from a number, or from a place whose end is kept in the register `base`."""
    register: int
    step: int
    start: int | None
    base: int | None

    def before(self, slot: int, rounds: int) -> list[Insn]:
        """What is done before the loop."""
        if self.base is None:
            return []
        moved = Insn(slot, MOV << 4 | BY_REGISTER | ALU, self.base, self.register, 0, 0)
        return [moved, Insn(slot, ADD << 4 | ALU, self.base, 0, 0, self.step * rounds)]

    def each(self, slot: int, counter: int, rounds: int) -> list[Insn]:
        """What sets the register at the beginning of each round."""
        if self.base is None:
            return round_of(self.register, self.start, self.step, counter, slot, rounds)
        moved = Insn(slot, MOV << 4 | BY_REGISTER | ALU, self.register, self.base, 0, 0)
        code = SUB if self.step > 0 else ADD
        return [moved, *[Insn(slot, code << 4 | BY_REGISTER | ALU, self.register, counter, 0, 0)] * abs(self.step)]


def walks_of(loops, loop, rounds: int) -> list[Walk]:
    """The registers that go on in a loop whose counter begins with this number of rounds."""
    known = values_in(loops, loop)
    kinds, wanted = kinds_at(loops.blocks)[loop.head], wanted_in(loops.blocks[loop.head], wanted_after(loops.blocks)[loop.head])[0]
    free = [it for it in free_registers(loops.blocks, loop) if it != loop.register]
    counts = {loop.register, *([loop.upward.register] if loop.upward else []), *(it.register for it in loop.walks)}
    found = []
    for register, end in sorted(after_round(loops, loop, known).items()):
        if end.register != register or not end.more or end.lifted or register in counts or register not in wanted:
            continue
        if kinds[register]:
            if abs(end.more) <= FARTHEST and free and not end.small:
                found.append(Walk(register, end.more, None, free.pop(0)))
            continue
        start = loops.start(loop, register)
        passed = None if start is None else (start, start + end.more * rounds)
        if passed and max(map(abs, passed)) < 1 << 31 and not (end.small and min(passed) < 0):
            found.append(Walk(register, end.more, start, None))
    return found


def meeting_of(loops, loop) -> tuple[Upward, Walk] | None:
    """A counter of the rounds of a loop that ends where a pointer that walks meets another, which then compares it with 1."""
    known, kinds, places = values_in(loops, loop), kinds_at(loops.blocks)[loop.head], places_before(loops, loop)
    for register, end in sorted(known.get(loop.latch, {}).items()):
        if end.register != register or not end.more or not kinds[register] & (FRONT | TAIL | STACK) or abs(end.more) > FARTHEST:
            continue
        test = test_of(loops, loop, register, known)
        one, other = places.get(register), places.get(test.other) if test else None
        if one is None or other is None or one[0] != other[0] or test.code != NOT_EQUAL or test.narrow or test.small:
            continue
        counter = counter_of(loops, loop)
        far = other[1] - one[1]
        found = Upward(register, 0, end.more, test.offset, test.code, False, None, far, False, counter, is_pointer=True)
        free = [it for it in free_registers(loops.blocks, loop) if it != counter]
        if found.rounds(far, far, MAX_BOUND) is None or not free:
            continue
        for at in loop.body:
            if test_at(loops, loop, register, known, at) == test:
                block = loops.blocks[at]
                goes_on = block.next[0] in loop.body
                block.last = Insn(block.last.slot, JEQ if goes_on else JNE, counter, 0, 0, 1)
        return found, Walk(register, end.more, None, free[0])
    return None


def places_before(loops, loop) -> Places:
    """Where pointers point to before a loop."""
    _, ends = places_at(loops.blocks)
    first, *others = [ends[at] for at in loops.before[loop.head] if at != loop.latch and at in ends]
    return {it: place for it, place in first.items() if all(way.get(it) == place for way in others)}
