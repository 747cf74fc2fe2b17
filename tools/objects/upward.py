"""Loops that count up, or down to another number than 0: a counter is put beside the register that counts, in the form of the verifier.

A round begins with `i = S - step * c`, where c counts from the greatest number of rounds down, so that the verifier knows i as well
as c. What ends the loop in C ends it still. If c came to 0 before, which it cannot, the run would be a denial.
"""
from __future__ import annotations

from dataclasses import dataclass
from typing import NamedTuple

from objects.insns import ADD, ALU, ALU32, ARSH, BY_REGISTER, FRAME, JMP32, LDX, LSH, MOV, MUL, OPPOSITE, RSH, ST, STX, SUB, Insn
from objects.pointers import WRITABLE, kinds_at, wanted_after, wanted_in

# The greatest number of rounds of a loop.
MAX_BOUND = 4096

COMPARE = {
    1: lambda a, b: a == b, 5: lambda a, b: a != b, 2: lambda a, b: a > b, 3: lambda a, b: a >= b, 10: lambda a, b: a < b,
    11: lambda a, b: a <= b, 6: lambda a, b: signed(a) > signed(b), 7: lambda a, b: signed(a) >= signed(b),
    12: lambda a, b: signed(a) < signed(b), 13: lambda a, b: signed(a) <= signed(b)}
MIRRORED = {1: 1, 5: 5, 2: 10, 10: 2, 3: 11, 11: 3, 6: 12, 12: 6, 7: 13, 13: 7}


def signed(number: int) -> int:
    return number - (1 << 64) if number >> 63 else number


# How much more than the number that is compared the register is where the loop ends first, by the sign of its step and the code.
ENDS = {(-1, 5): 0, (-1, 2): 0, (-1, 3): -1, (1, 5): 0, (1, 10): 0, (1, 11): 1}


@dataclass
class Upward:
    """The register that counts, the number with which it begins, its step, and the comparison that ends the loop: what is compared
    with `other`, or with `number`, is so much more than the register at the beginning of the round. `small` if 32 bits count. The
    start is None where it is no number: then the counter is how far the register is from the end. A pointer counts from where it
    begins, and something else sets it."""
    register: int
    start: int | None
    step: int
    offset: int
    code: int
    narrow: bool
    other: int | None
    number: int
    small: bool
    counter: int
    is_pointer: bool = False

    @property
    def asked(self) -> int:
        """The register whose range says how many rounds there are."""
        return self.counter if self.start is None or self.other is None else self.other

    @property
    def end(self) -> int:
        """What the register is at the beginning of its last round, less the other register where there is one."""
        return ENDS[self.step, self.code] - self.offset + (self.number if self.other is None else 0)

    def before(self, slot: int, rounds: int) -> list[Insn]:
        """What sets the counter before the loop."""
        if self.start is not None:
            return [number_into(slot, self.counter, rounds)]
        return distance(slot, self.counter, self.register, self)

    def each(self, slot: int, rounds: int) -> list[Insn]:
        """What sets the register that counts at the beginning of each round."""
        if self.is_pointer:
            return []
        if self.start is not None:
            return round_of(self.register, self.start, self.step, self.counter, slot, rounds)
        return distance(slot, self.register, self.counter, self)

    def rounds(self, least: int, most: int, greatest: int) -> int | None:
        """How many rounds there are at most where the other number is from `least` to `most`; None where it is more than `greatest`,
        or where more numbers than one were wanted to say it."""
        if least != most and not 0 <= least <= most < 1 << 31:
            return None
        found = [self.rounds_to(it) for it in {least, most}]
        if None in found:
            return None
        last = self.start + self.step * (max(found) - 1)
        passed = [it + more for it in (self.start, last) for more in (0, self.offset)]
        if max(map(abs, (*passed, last + self.step))) >= 1 << 31 or self.small and min(passed) < 0:
            return None
        # Between two numbers lie no more rounds than at the one or the other; of `!=` only if each step goes by one and towards them.
        if least != most and self.code == 1:
            return None
        if least != most and self.code == 5:
            first = self.start + self.offset
            if abs(self.step) != 1 or not (first <= least if self.step > 0 else first >= most):
                return None
        return max(found) if max(found) <= greatest else None

    def rounds_to(self, number: int, limit: int = MAX_BOUND + 1) -> int | None:
        mask = 0xFFFFFFFF if self.narrow else (1 << 64) - 1
        at = self.start + self.offset
        for done in range(1, limit):
            a, b = at & mask & (0xFFFFFFFF if self.small else mask), number & mask
            if self.narrow and self.code in (6, 7, 12, 13):
                a, b = (it | ~mask & (1 << 64) - 1 if it >> 31 else it for it in (a, b))
            if not COMPARE[self.code](a, b):
                return done
            at += self.step
        return None


class Value(NamedTuple):
    """What a register is in a round: what another was at its beginning, and so much more; `small` if that went through 32 bits, and
    `lifted` where it is shifted up by 32 bits, as before its sign is carried down."""
    register: int
    more: int
    small: bool
    lifted: bool = False


# What is known of registers, and of words of the stack by their offsets, which are negative.
Values = dict[int, Value]


def upward_of(loops, loop) -> Upward | None:
    """What counts in a loop, if a register does and what ends the loop is known of its comparison: one that begins with a number, or
    else one that goes by one to where the loop ends."""
    known = values_in(loops, loop)
    stays = after_round(loops, loop, known)
    far: Upward | None = None
    for register, end in sorted(stays.items()):
        if end.register != register or not end.more or end.lifted:
            continue
        start, test = loops.start(loop, register), test_of(loops, loop, register, known)
        if test is None:
            continue
        counter = counter_of(loops, loop)
        found = Upward(register, start, end.more, test.offset, test.code, test.narrow, test.other, test.number,
                       test.small or end.small, counter)
        if start is not None:
            return found
        if far is None and goes_to_end(found) and not kinds_at(loops.blocks)[loop.head][register]:
            far = found
    return far


def counter_of(loops, loop) -> int:
    """A register for a counter of a loop's rounds."""
    free = free_registers(loops.blocks, loop)
    if not free:
        raise loops.refusal("a loop that leaves no register for a counter of its rounds", loop.latch,
                            "use fewer values in it, compile with -O2, or end it by AGAIN")
    return free[0]


def goes_to_end(upward: Upward) -> bool:
    """Whether each round takes the register one nearer to where its loop ends, as numbers without a sign go."""
    return (upward.step, upward.code) in ENDS and (upward.other is not None or upward.number >= 0 and abs(upward.end) < (1 << 31) - 1)


def values_in(loops, loop) -> dict[int, Values]:
    """What is known of each register at the end of each block of a loop, by what registers were at the beginning of the round."""
    known: dict[int, Values] = {}
    left = [loop.head]
    while left:
        at = left.pop()
        values = {it: Value(it, 0, False) for it in WRITABLE} if at == loop.head else joined(
            [known[way] for way in loops.before[at] if way in known])
        for it in loops.blocks[at].body:
            values = value_after(values, it)
        if known.get(at) != values:
            known[at] = values
            left += [way for way in loops.blocks[at].next if way in loop.body and way != loop.head]
    return known


def after_round(loops, loop, known: dict[int, Values]) -> Values:
    """What each register is after a round, by what it was at its beginning. A compiler may have two registers for one number that counts,
    of which one is set by the other: then it goes on as that does, if it begins as far from it."""
    stays = dict(known.get(loop.latch, {}))
    for register, end in known.get(loop.latch, {}).items():
        other = known[loop.latch].get(end.register)
        if register < 0 or end.register == register or other is None or other.register != end.register:
            continue
        if not other.more or end.lifted or other.lifted:
            continue
        start, begun = loops.start(loop, register), loops.start(loop, end.register)
        if start is not None and begun is not None and start - begun == end.more - other.more:
            stays[register] = Value(register, other.more, end.small or other.small)
    return stays


def joined(ways: list[Values]) -> Values:
    """What is known on all of these ways."""
    first, *others = ways
    return {register: value for register, value in first.items() if all(it.get(register) == value for it in others)}


def value_after(values: Values, insn: Insn) -> Values:
    """What is known after an instruction."""
    found = None
    if insn.family in (ALU, ALU32):
        if insn.code == MOV and insn.by_register and (not insn.off or insn.off == 32 and insn.family == ALU):
            found = values.get(insn.src)
        elif insn.code == ADD and not insn.by_register:
            found = values.get(insn.dst)
            found = found and found._replace(more=found.more + insn.imm)
        elif insn.family == ALU and insn.code in (LSH, RSH, ARSH) and not insn.by_register and insn.imm == 32:
            found = values.get(insn.dst)
            found = found and shifted(found, insn.code)
        if found is not None and found.lifted and insn.code == ADD:
            found = None
    elif insn.is_double(LDX) and insn.src == FRAME:
        found = values.get(insn.off)
    elif insn.family in (ST, STX):
        return value_stored(values, insn)
    after = {register: value for register, value in values.items() if register not in insn.writes()}
    if found is not None:
        after[insn.dst] = found._replace(small=found.small or insn.family == ALU32)
    return after


def value_stored(values: Values, insn: Insn) -> Values:
    """What is known after a store: of the stack nothing if it goes through another pointer."""
    near = insn.dst == FRAME
    after = {at: value for at, value in values.items() if at >= 0 or near and not -8 < at - insn.off < 8}
    if near and insn.is_double(STX) and insn.src in values:
        after[insn.off] = values[insn.src]
    return after


def shifted(value: Value, code: int) -> Value | None:
    """What is known after a shift by 32 bits: up, and down again with the sign or without it. A number that has 31 bits is then what it
    was."""
    if code == LSH:
        return None if value.lifted else value._replace(lifted=True)
    return value._replace(lifted=False, small=code == RSH) if value.lifted else None


def each_round(loops, loop, places: set[int]) -> bool:
    """Whether each round goes through one of these blocks, whatever way it takes."""
    seen, left = set(places), [loop.head]
    while left:
        block = left.pop()
        if block in seen:
            continue
        if block == loop.latch:
            return False
        seen.add(block)
        left += [way for way in loops.blocks[block].next if way in loop.body and way != loop.head]
    return True


class Test(NamedTuple):
    """The comparison that ends a loop: how much more than the register it compares, its code that goes on, whether it compares 32 bits,
    the other register or the number, and whether 32 bits count."""
    offset: int
    code: int
    narrow: bool
    other: int | None
    number: int
    small: bool


def test_of(loops, loop, register: int, known: dict[int, Values]) -> Test | None:
    """The comparison of a register that ends a loop, through which each round goes; it may be there once on each of several ways."""
    places: dict[Test, set[int]] = {}
    for at in sorted(loop.body, reverse=True):
        test = test_at(loops, loop, register, known, at)
        if test is not None and not any(at in it.body for it in loops.inside(loop)):
            places.setdefault(test, set()).add(at)
    return next((test for test, found in places.items() if each_round(loops, loop, found)), None)


def test_at(loops, loop, register: int, known: dict[int, Values], at: int) -> Test | None:
    """The comparison of a register with which a block ends, if it may end the loop."""
    last = loops.blocks[at].last
    if last is None or not last.compares or last.code not in COMPARE:
        return None
    out = [way not in loop.body for way in loops.blocks[at].next]
    one, other = known[at].get(last.dst), known[at].get(last.src) if last.by_register else None
    code = last.code
    if last.by_register and (one is None or one.register != register):
        one, other, code = other, one, MIRRORED[code]
    if sum(out) != 1 or one is None or one.register != register or one.lifted:
        return None
    if last.by_register and (other is None or other.more or known[loop.latch].get(other.register) != Value(other.register, 0, False)):
        return None
    # The first of both ways is for where the comparison does not hold.
    code = code if out[0] else OPPOSITE[code]
    small = one.small or other is not None and other.small
    return Test(one.more, code, last.family == JMP32, other.register if other is not None else None, last.imm, small)


def free_registers(blocks, loop) -> list[int]:
    """The registers that no instruction of the loop names, and whose values nobody wants after it."""
    insns = [it for at in loop.body for it in (*blocks[at].body, *filter(None, [blocks[at].last]))]
    after = wanted_after(blocks)
    taken = set().union(*(it.reads() | it.writes() for it in insns), *(wanted_in(blocks[at], after[at])[0] for at in loop.body))
    return [it for it in reversed(WRITABLE) if it not in taken]


def number_into(slot: int, register: int, number: int) -> Insn:
    return Insn(slot, MOV << 4 | ALU, register, 0, 0, number)


def distance(slot: int, to: int, of: int, upward: Upward) -> list[Insn]:
    """What puts into a counter how far the register that counts is from the end of its loop, and one more; or into that register what
    it is by the counter: both are one sum."""
    more = upward.end - 1 if to == upward.register and upward.step < 0 else 1 - upward.end if upward.step < 0 else upward.end + 1
    add = [Insn(slot, ADD << 4 | ALU, to, 0, 0, more)] if more else []
    if upward.other is None and upward.step > 0:
        return [number_into(slot, to, more), Insn(slot, SUB << 4 | BY_REGISTER | ALU, to, of, 0, 0)]
    first = upward.other if upward.step > 0 else of
    moved = [Insn(slot, MOV << 4 | BY_REGISTER | ALU, to, first, 0, 0)]
    if upward.other is None:
        return [*moved, *add]
    if upward.step > 0:
        return [*moved, *add, Insn(slot, SUB << 4 | BY_REGISTER | ALU, to, of, 0, 0)]
    code = ADD if to == upward.register else SUB
    return [*moved, *add, Insn(slot, code << 4 | BY_REGISTER | ALU, to, upward.other, 0, 0)]


def round_of(register: int, start: int, step: int, counter: int, slot: int, rounds: int) -> list[Insn]:
    """What sets a register that counts at the beginning of each round: each number on the way is within what the verifier knows."""
    times = [] if abs(step) == 1 else [Insn(slot, MUL << 4 | ALU, register, 0, 0, abs(step))]
    if step > 0:
        first, end = (rounds + start, 0) if step == 1 else (rounds, start)
        begun = [number_into(slot, register, first), Insn(slot, SUB << 4 | BY_REGISTER | ALU, register, counter, 0, 0)]
    else:
        begun, end = [Insn(slot, MOV << 4 | BY_REGISTER | ALU, register, counter, 0, 0)], start + step * rounds
    return [*begun, *times, *([Insn(slot, ADD << 4 | ALU, register, 0, 0, end)] if end else [])]
