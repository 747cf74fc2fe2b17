"""The loops of a function, and their counters."""
from __future__ import annotations

from dataclasses import dataclass, field

from objects.flow import Block, Blocks, new_block
from objects.insns import ALU, ALU32, EXIT, MOV, Insn
from objects.refusal import Refusal
from objects.upward import MAX_BOUND, Upward, upward_of
from objects.walks import Walk, meeting_of, walks_of

MAX_LOOPS = 8

# The opcodes of `add r, -1`, `jne r, 0` and `jeq r, 0`, and the same of 32 bits.
COUNT_DOWN, JNE, JEQ = 0x07, 0x55, 0x15
COUNT_DOWN_NARROW, JNE_NARROW, JEQ_NARROW = 0x04, 0x56, 0x16

# The code of `jne`.
NOT_EQUAL = 5

# The verdict of a run whose counter would be 0 where it cannot be, and the opcode of `mov r0, 10`.
DENIAL, PUT_NUMBER = 10, 0xB7


@dataclass
class Loop:
    """A loop: from its head to its latch, from which the only way back leads. Its counter is at most `bound` at first; 0 is for a
    bound that is to be asked for. `upward` is there where the counter was put beside a register that counts up."""
    head: int
    latch: int
    body: set[int]
    register: int = 0
    bound: int = 0
    upward: Upward | None = None
    start: int = 0
    slot: int = 0
    first: list[Insn] = field(default_factory=list)
    walks: list[Walk] = field(default_factory=list)

    @property
    def asked(self) -> int:
        """The register whose range says how many rounds there are."""
        return self.register if self.upward is None else self.upward.asked


class Loops:
    """Finds the loops of a function, and gives each the form that the verifier wants of it. If they are `walking`, what goes on beside
    a counter is set by it."""

    def __init__(self, blocks: Blocks, instead: str, walking: bool):
        self.blocks, self.instead, self.walking = blocks, instead, walking
        self.before: dict[int, list[int]] = {at: [] for at in blocks}
        for at, block in blocks.items():
            for way in block.next:
                self.before[way].append(at)

    def refusal(self, what: str, block: int, instead: str = "") -> Refusal:
        it = self.blocks[block]
        slot = it.end().slot if it.last or it.body else block
        return Refusal(what, instead or self.instead, slot)

    def found(self, back: list[tuple[int, int]]) -> list[Loop]:
        """The loops of these ways back."""
        back = self.joined(back)
        self.loops = loops = [Loop(head, latch, self.body(latch, head)) for latch, head in back]
        if len(loops) > MAX_LOOPS:
            raise self.refusal(f"{len(loops)} loops, and {MAX_LOOPS} are possible", back[-1][0], "unroll some by `#pragma unroll`")
        for loop in loops:
            if any(loop.latch in other.body and other.body < loop.body for other in loops):
                raise self.refusal("a loop that goes back from within another", loop.latch)
        for loop in loops:
            self.count(loop)
        return loops

    def joined(self, back: list[tuple[int, int]]) -> list[tuple[int, int]]:
        """The ways back, with one for each head: where there are more, as of `continue`, they come together before."""
        found = []
        for head in dict.fromkeys(head for _, head in back):
            latches = [latch for latch, other in back if other == head]
            if len(latches) > 1:
                latches = [self.block_before(head, latches, [])]
            found.append((latches[0], head))
        return found

    def block_before(self, at: int, ways: list[int], body: list[Insn]) -> int:
        """A new block before another, to which these blocks lead then instead."""
        new = self.new_block(Block(body, None, [at]))
        for way in ways:
            self.blocks[way].next = [new if it == at else it for it in self.blocks[way].next]
        self.before[new] = list(ways)
        self.before[at] = [it for it in self.before[at] if it not in ways] + [new]
        return new

    def new_block(self, block: Block) -> int:
        at = new_block(self.blocks, block)
        self.before[at] = []
        return at

    def body(self, latch: int, head: int) -> set[int]:
        """The blocks that come to the latch without the head; one of them is the first of the function where a run may enter
        elsewhere."""
        body, left = {head}, [latch]
        while left:
            at = left.pop()
            if at not in body:
                if at == 0:
                    raise self.refusal("a loop with two ways in", latch)
                body.add(at)
                left += self.before[at]
        return body

    def count(self, loop: Loop) -> None:
        """Finds the counter, and puts its `add r, -1` before the comparison with 0 at the end of the latch; or puts a counter
        beside a register that counts otherwise."""
        why = self.counts_down(loop)
        if why is not None:
            loop.upward = upward_of(self, loop)
            met = meeting_of(self, loop) if loop.upward is None and self.walking else None
            if met is not None:
                loop.upward, loop.walks = met[0], [met[1]]
            if loop.upward is None:
                raise why
            self.put_counter(loop)
        if self.walking:
            self.put_walks(loop)

    def counts_down(self, loop: Loop) -> Refusal | None:
        """Finds the counter of a loop that counts down to 0, or says why there is none."""
        latch = self.blocks[loop.latch]
        turned = latch.next[0] == loop.head
        last = latch.last
        # A counter of 32 bits counts as one of 64: the verifier wants it to be from 1 to its bound before the loop.
        narrow = last is not None and last.op in (JNE_NARROW, JEQ_NARROW)
        if last is None or last.imm or last.op not in ((JEQ, JEQ_NARROW) if turned else (JNE, JNE_NARROW)):
            return self.refusal("a loop that does not end by counting down to 0", loop.latch)
        register = last.dst
        named = [place for place, it in enumerate(latch.body) if register in it.reads() | it.writes()]
        down = latch.body[named[-1]] if named else None
        if down is None or down.imm != -1 or down.op not in ((COUNT_DOWN, COUNT_DOWN_NARROW) if narrow else (COUNT_DOWN,)):
            return self.refusal("a loop that does not end by taking 1 from a counter", loop.latch)
        if sum(register in it.writes() for at in loop.body for it in self.blocks[at].body) > 1:
            return self.refusal("a loop whose counter is written elsewhere too", loop.latch)
        latch.body.pop(named[-1])
        latch.body.append(down._replace(op=COUNT_DOWN))
        latch.last = last._replace(op=JEQ if turned else JNE)
        loop.register, loop.bound = register, self.bound(loop, register)
        return None

    def put_counter(self, loop: Loop) -> None:
        """Puts a counter beside the register that counts: a block before the loop, and one at its end."""
        upward = loop.upward
        head, latch = self.blocks[loop.head], self.blocks[loop.latch]
        if any(it.latch == loop.latch and it is not loop for it in self.loops):
            raise self.refusal("a loop that goes back from within another", loop.latch)
        loop.slot, loop.first = self.first_slot(loop.head), list(head.body)
        end = latch.end().slot if latch.last or latch.body else loop.slot
        loop.start = self.block_at_start(loop)
        down = self.block_before(loop.head, [loop.latch], [Insn(end, COUNT_DOWN, upward.counter, 0, 0, -1)])
        self.test(down, Insn(end, JNE, upward.counter, 0, 0, 0), [self.denial(end), loop.head])
        for it in [it for it in self.loops if loop.body <= it.body]:
            it.body.add(down)
        loop.latch, loop.register = down, upward.counter
        is_asked = upward.start is None or upward.other is not None
        rounds = 0 if is_asked else upward.rounds(upward.number, upward.number, MAX_BOUND)
        if rounds is None:
            raise self.refusal("a loop whose number of rounds is not known", loop.latch)
        self.set_bound(loop, rounds)

    def first_slot(self, at: int) -> int:
        block = self.blocks[at]
        return (block.body[0] if block.body else block.end()).slot

    def block_at_start(self, loop: Loop) -> int:
        """A new block before a loop, through which each run comes to it."""
        start = self.block_before(loop.head, [at for at in self.before[loop.head] if at != loop.latch], [])
        for it in [it for it in self.loops if loop.body < it.body]:
            it.body.add(start)
        return start

    def denial(self, slot: int) -> int:
        """A new block that ends the run with a denial."""
        return self.new_block(Block([Insn(slot, PUT_NUMBER, 0, 0, 0, DENIAL)], Insn(slot, EXIT, 0, 0, 0, 0), []))

    def test(self, at: int, last: Insn, ways: list[int]) -> None:
        """Ends a block by a comparison that leads to these two."""
        self.blocks[at].last, self.blocks[at].next = last, ways
        for way in ways:
            if at not in self.before[way]:
                self.before[way].append(at)

    def put_guard(self, loop: Loop) -> bool:
        """Ends a run with a denial whose counter would be 0 at first, of which the verifier knows no more: a loop that counts down from 0
        would go on for 2^64 rounds, so no program means it. False if the loop would end after a round."""
        if loop.upward is not None and loop.upward.code != NOT_EQUAL:
            return False
        slot = self.first_slot(loop.head)
        start = self.block_at_start(loop)
        self.test(start, Insn(slot, JEQ, loop.register, 0, 0, 0), [loop.head, self.denial(slot)])
        return True

    def put_walks(self, loop: Loop) -> None:
        """Sets what goes on beside a counter that begins with the number of rounds at the beginning of each."""
        if loop.upward is None and self.start(loop, loop.register) != loop.bound or loop.upward is not None and loop.upward.start is None:
            return
        found = walks_of(self, loop, loop.bound or MAX_BOUND)
        if not found:
            return
        loop.walks += found
        if loop.upward is None:
            loop.slot, loop.first = self.first_slot(loop.head), list(self.blocks[loop.head].body)
            loop.start = self.block_at_start(loop)
        self.set_bound(loop, loop.bound)

    def set_bound(self, loop: Loop, rounds: int) -> None:
        """Gives a loop its bound; 0 where it is to be asked for."""
        loop.bound = rounds
        if loop.upward is None and not loop.walks:
            return
        before = loop.upward.before(loop.slot, rounds) if loop.upward else []
        each = loop.upward.each(loop.slot, rounds) if loop.upward else []
        for it in loop.walks:
            before = before + it.before(loop.slot, rounds)
            each = each + it.each(loop.slot, loop.register, rounds)
        self.blocks[loop.start].body = before
        self.blocks[loop.head].body = each + loop.first

    def inside(self, loop: Loop) -> list[Loop]:
        return [it for it in self.loops if it.body < loop.body]

    def start(self, loop: Loop, register: int) -> int | None:
        """The number that a register has where a run comes to a loop, if it is one on all ways."""
        found = set()
        left = [(at, register) for at in self.before[loop.head] if at != loop.latch]
        seen = set(left)
        while left:
            at, wanted = left.pop()
            for it in reversed(self.blocks[at].body):
                if wanted in it.writes():
                    if it.moves(ALU):
                        wanted = it.src
                        continue
                    if it.family not in (ALU, ALU32) or it.code != MOV or it.by_register:
                        return None
                    found.add(it.imm & 0xFFFFFFFF if it.family == ALU32 else it.imm)
                    break
            else:
                if at == 0:
                    return None
                more = {(way, wanted) for way in self.before[at]} - seen
                seen |= more
                left += more
        return found.pop() if len(found) == 1 else None

    def bound(self, loop: Loop, register: int) -> int:
        """The greatest number that is put into the counter before the loop; 0 where none is."""
        numbers = self.numbers_before(loop, register)
        if not numbers:
            return 0
        if not 1 <= max(numbers) <= MAX_BOUND:
            raise self.refusal(f"a loop of {max(numbers)} rounds", loop.latch, f"loop from 1 to {MAX_BOUND:,} times")
        return max(numbers)

    def numbers_before(self, loop: Loop, register: int) -> list[int]:
        """The numbers that the counter may have where a run comes to the loop, as far as instructions say them."""
        numbers: list[int] = []
        left = [(at, register) for at in self.before[loop.head] if at != loop.latch]
        seen = set(left)
        while left:
            at, wanted = left.pop()
            for it in reversed(self.blocks[at].body):
                if wanted not in it.writes():
                    continue
                if not it.moves(ALU) and not it.moves(ALU32):
                    numbers += [it.imm] if it.family in (ALU, ALU32) and it.code == MOV and not it.by_register else []
                    break
                wanted = it.src
            else:
                more = {(way, wanted) for way in self.before[at]} - seen
                seen |= more
                left += more
        return numbers
