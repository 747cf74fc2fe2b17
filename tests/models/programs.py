"""Random programs. Each sets its registers and a part of its stack, does what the random numbers say, and answers with a mixture
of all. Some have declared loops."""
from __future__ import annotations

from random import Random

from models.images import Loop
from models.insns import ALU, JUMPS, SIGNED, SIZES, Insn, Reg, Source, alu, jump, leave, load, move_signed, negate, signed, store, swap, wide

# The places of the stack that each program sets and reads back, of eight bytes each.
PLACES = range(-64, 0, 8)

# The registers that hold numbers. Of those behind them r3 and r7 count loops, and r8 and r9 hold pointers.
NUMBERS = [0, 4, 5, 6]

OPERATIONS = [name for name in ALU if name != "neg"] + list(SIGNED)
LOADS = [*SIZES, "sb", "sh", "sw"]
WIDTHS = [32, 64]
EXTENSIONS = [(8, 32), (16, 32), (8, 64), (16, 64), (32, 64)]

# The counter of a loop, and that of a loop inside it; and the greatest bound.
COUNTER, INNER, BOUND = 3, 7, 8


def number(random: Random) -> int:
    """A register that holds a number."""
    return random.choice(NUMBERS)


def any_number(random: Random) -> int:
    """A number of 64 bits."""
    return random.getrandbits(64)


def immediate(random: Random) -> int:
    """An immediate: often zero or near it."""
    return random.choice([0, random.randrange(64), -random.randrange(64), signed(random.getrandbits(32), 32)])


def operand(random: Random) -> Source:
    """An immediate, or a register that holds a number."""
    return immediate(random) if random.randrange(2) else Reg(number(random))


def arithmetic(random: Random, dst: int, source: Source) -> Insn:
    return alu(random.choice(OPERATIONS), dst, source, random.choice(WIDTHS))


def extension(random: Random, dst: int, src: int) -> Insn:
    bits, width = random.choice(EXTENSIONS)
    return move_signed(bits, dst, src, width)


def order(random: Random, dst: int) -> Insn:
    return swap(random.choice(["le", "be", "swap"]), random.choice([16, 32, 64]), dst)


def leap(random: Random, dst: int, source: Source) -> Insn:
    """A jump over one or two slots."""
    return jump(random.choice(list(JUMPS)), dst, source, 1 + random.randrange(2), random.choice(WIDTHS))


def any_load(random: Random, base: int, offset: int) -> Insn:
    return load(random.choice(LOADS), number(random), base, offset)


def any_store(random: Random, base: int, offset: int) -> Insn:
    return store(random.choice(list(SIZES)), base, offset, operand(random))


def access(random: Random) -> Insn:
    """An access of the front, the tail, or the part of the stack that is set; some by a register that a pointer was moved to."""
    low, high = random.randrange(5), random.randrange(57) - 64
    kind = random.randrange(6)
    if kind == 0:
        return load("h", number(random), 1, random.randrange(3))
    if kind == 5:
        return any_store(random, 10, high)
    base, offset = [(2, low), (8, 0), (10, high), (9, high + 64)][kind - 1]
    return any_load(random, base, offset)


def chosen(random: Random) -> Insn:
    """An instruction on registers that hold numbers, or an access of a place that is there."""
    dst, kind = number(random), random.randrange(10)
    if kind == 0:
        return negate(dst, random.choice(WIDTHS))
    if kind == 1:
        return extension(random, dst, number(random))
    if kind == 2:
        return order(random, dst)
    if kind == 3:
        return leap(random, dst, operand(random))
    return access(random) if kind < 7 else arithmetic(random, dst, operand(random))


def wild(random: Random) -> Insn:
    """An instruction on any registers."""
    dst, src, offset = random.randrange(11), random.randrange(11), random.randrange(16) - 8
    kind = random.randrange(6)
    if kind == 0:
        return extension(random, dst, src)
    if kind == 1:
        return leap(random, dst, Reg(src))
    if kind == 2:
        return any_load(random, src, offset)
    if kind == 3:
        return any_store(random, dst, offset)
    return arithmetic(random, dst, immediate(random) if kind == 4 else Reg(src))


def following(random: Random, one_in: int) -> Insn:
    """The next instruction: one in so many is any."""
    return wild(random) if random.randrange(one_in) == 0 else chosen(random)


def registers_set(random: Random) -> list[Insn]:
    """Numbers in r0 and r4 to r6, a place of the tail in r8, and the lowest place that is set in r9."""
    return [*[wide(register, any_number(random)) for register in NUMBERS], alu("mov", 8, Reg(2)), alu("add", 8, random.randrange(5)),
            alu("mov", 9, Reg(10)), alu("add", 9, -64)]


def stack_set(random: Random) -> list[Insn]:
    return [store("dw", 10, offset, operand(random)) for offset in PLACES]


def mixed_in(register: int) -> list[Insn]:
    """`r0 = 31 * r0 + src`."""
    return [alu("mul", 0, 31), alu("add", 0, Reg(register))]


def end(random: Random) -> list[Insn]:
    """Mixes all numbers and all places of the stack into r0, and ends."""
    mixed = [insn for register in NUMBERS for insn in mixed_in(register)]
    mixed += [insn for offset in PLACES for insn in [load("dw", 4, 10, offset), *mixed_in(4)]]
    return [*mixed, leave()]


def straight(random: Random, length: int, one_in: int) -> list[Insn]:
    """A program without loops, with so many random instructions."""
    return [*registers_set(random), *stack_set(random), *[following(random, one_in) for _ in range(length)], *end(random)]


def slots(insns: list[Insn]) -> int:
    return sum(insn.slots for insn in insns)


def some(random: Random, one_in: int) -> list[Insn]:
    """Up to six random instructions, and two that do not jump: no jump of those before leads behind them."""
    last = [arithmetic(random, number(random), operand(random)) for _ in range(2)]
    return [following(random, one_in) for _ in range(random.randrange(7))] + last


def round_of(random: Random, insns: list[Insn], counter: int, one_in: int, is_nested: bool) -> list[Loop]:
    """Adds a loop, and one inside it where it is nested: the loops, the outer one first."""
    bound = 1 + random.randrange(BOUND)
    insns.append(alu("mov", counter, 1 + random.randrange(bound)))
    head, inner = slots(insns), []
    insns += some(random, one_in)
    if is_nested:
        inner = round_of(random, insns, INNER, one_in, False)
        insns += some(random, one_in)
    insns.append(alu("add", counter, -1))
    back = slots(insns)
    insns.append(jump("jne", counter, 0, head - back - 1))
    return [Loop(head, back, bound, counter), *inner]


def looped(random: Random, one_in: int) -> tuple[list[Insn], list[Loop]]:
    """A program of up to four loops one behind the other, about half of them with another one inside."""
    insns, loops = [*registers_set(random), *stack_set(random)], []
    for _ in range(1 + random.randrange(4)):
        insns += some(random, one_in)
        loops += round_of(random, insns, COUNTER, one_in, random.randrange(2) == 0)
    return insns + end(random), loops
