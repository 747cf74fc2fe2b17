"""From the bytes of an object to the text of a program."""
from __future__ import annotations

import os
import struct
from typing import Callable

from objects.asked import Answer, Asker
from objects.copies import compare_what_goes_on, say_ranges
from objects.elf import Object
from objects.flow import blocks_of, shorten, thread, walked
from objects.function import Decoder, Function, Maps, function_of
from objects.insns import Insn
from objects.kept import HEADER_BYTES, keep_none
from objects.layout import Layout, Source, printed
from objects.loops import Loop, Loops
from objects.pointers import put_pointers_first, version_of
from objects.refusal import Refusal
from objects.upward import MAX_BOUND

MAX_SLOTS = 512
MAX_BUDGET = 65536

# The code of the verifier for a loop that may begin with a counter outside its bound.
LOOP_ENTRY = 4

# In what ways a function is tried: whether what only says where its loops go on is led past, and whether the verifier is helped: what goes
# on beside a counter is set by it, and ranges are said.
WAYS = ((False, False), (True, False), (False, True), (True, True))

# What to write instead of a loop that has not the form.
OTHER_LOOP = "count from a number by one number, end it by AGAIN, or write `#pragma unroll` before a `for` that ends at a number"
UNKNOWN_ROUNDS = "begin its counter with a number, or bound it before by an `if` of its own: `if (i > 12) return ..`"
NO_RMAPCTL = "begin its counter with a number, or let `rmapctl` be asked: name it by --rmapctl"
OTHER_LOOP_OF_GCC = ("compile with -fno-ivopts -fno-unroll-loops -fno-unroll-all-loops, or write a `for` with `#pragma GCC unroll N` "
                     "before it")


def program_of(content: bytes, name: str, section: str, asker: Asker | None = None,
               tell: Callable[[str], None] | None = None) -> str:
    """The text of the program of the object of this name, or a refusal that says where. What rmapctl has against it is told."""
    function = source = None
    try:
        whole = Object(content)
        function = function_of(whole, section)
        source = Source(whole.lines(function.section), function.start, whole.source())
        maps = Maps(whole)
        decoder = Decoder(whole, function, maps)
        insns = list(decoder.insns())
        room = decoder.tables.room(insns, HEADER_BYTES)
        stores = decoder.tables.put(insns)
        laid, layout, said = chosen(lambda threaded, helped: Laid(insns, stores, room, whole.is_of_gcc(), threaded, helped),
                                    lambda laid, layout: text_of(layout, laid.version, maps, source), maps.listed(), asker)
        if said and said.code is not None and function.is_plain():
            raise Refusal("the verifier refuses it", "compile with -O2")
        if tell and said and said.slot is not None:
            slot = layout.slot_lines()[said.slot]
            tell(f"{place(name, function, source, slot)}: rmapctl refuses this with V{said.code} at {said.lines[1]}; "
                 f"tools/bpf --why {name} says what is known there")
        return text_of(layout, laid.version, maps, source)
    except Refusal as it:
        if function is not None and function.is_plain():
            raise Refusal(f"{name}: {function.name} was compiled without optimisation", "compile with -O2") from None
        raise Refusal(f"{place(name, function, source, it.slot)}: {it.what}", it.instead) from None
    except (struct.error, IndexError, ValueError, OverflowError):
        raise Refusal(f"{name}: the object is cut off, or none", "compile it again") from None


def text_of(layout: Layout, version: int, maps: Maps, source: Source) -> str:
    return "".join(f"{line}\n" for line in printed(layout, version, maps.listed(), source))


def chosen(laid_out: Callable[[bool, bool], Laid], text: Callable[[Laid, Layout], str], maps: str,
           asker: Asker | None) -> tuple[Laid, Layout, Answer | None]:
    """The function as it stands, if that may judge. If not, without the registers that only say where its loops go on, and with what helps
    the verifier, if it may judge then; else the text of these that is refused farthest down."""
    best, refusal = None, None
    for threaded, helped in WAYS:
        try:
            laid = laid_out(threaded, helped)
            found = laid, *bounded(laid, lambda it: text(laid, it), maps, asker)
        except Refusal as it:
            refusal = refusal or it
            continue
        if found[2] is None or found[2].code is None:
            return found
        if best is None or refused_at(found[1], found[2]) > refused_at(best[1], best[2]):
            best = found
    if best is None:
        raise refusal
    return best


def refused_at(layout: Layout, said: Answer) -> int:
    """The slot of the function at which it is refused."""
    return layout.slot_lines()[said.slot] if said.slot is not None else -1


class Laid:
    """A function in its blocks and loops, and its version."""

    def __init__(self, insns: list[Insn], stores: list[Insn], room: int | None, is_of_gcc: bool, threaded: bool, helped: bool):
        all_blocks = blocks_of(insns)
        shorten(all_blocks)
        if threaded:
            thread(all_blocks)
            shorten(all_blocks)
        self.blocks, back = walked(all_blocks)
        check_slots(sum(it.slots for block in self.blocks.values() for it in block.body))
        compare_what_goes_on(self.blocks)
        if helped:
            say_ranges(self.blocks)
        try:
            self.version = version_of(self.blocks)
        except Refusal:
            if not helped or room is None:
                raise
            stores = keep_none(self.blocks, room) + stores
            self.version = version_of(self.blocks)
        put_pointers_first(self.blocks)
        self.finder = Loops(self.blocks, OTHER_LOOP_OF_GCC if is_of_gcc else OTHER_LOOP, helped)
        self.loops = self.finder.found(back)
        if stores and any(0 in it.body for it in self.loops):
            raise Refusal("constant data, or a pointer that is kept, and a loop at the very beginning", "do something before the loop",
                          stores[0].slot)
        self.blocks[0].body = stores + self.blocks[0].body

    def layout(self) -> Layout:
        layout = Layout(self.blocks, list(self.loops))
        check_slots(layout.slots())
        weights = layout.weights()
        if sum(weights) > MAX_BUDGET:
            heaviest = layout.items[weights.index(max(weights))].insn.slot
            raise Refusal(f"a weight of {sum(weights):,}, and {MAX_BUDGET:,} is possible", "loop fewer times", heaviest)
        return layout


def bounded(laid: Laid, text: Callable[[Layout], str], maps: str, asker: Asker | None) -> tuple[Layout, Answer | None]:
    """The layout with the bounds of its loops. Where a bound is not in the instructions, or is too small, it is what the verifier
    knows of the counter at the head. And what it says of that at last, where it is asked."""
    for _ in range(2 * len(laid.loops) + 1):
        layout = laid.layout()
        said = asker.why(text(layout), maps) if asker else None
        if said is None or said.code != LOOP_ENTRY:
            break
        loop = next((it for it in laid.loops if layout.slot_of(it.head) == said.slot), None)
        if loop is None or not take_bound(laid, loop, said):
            break
    for loop in laid.loops:
        if not loop.bound:
            if said is not None and said.code not in (None, LOOP_ENTRY):
                return layout, said
            known = said.known.get(loop.asked) if said else None
            what = f", only that its counter or end is {known[0]:,} to {known[1]:,}" if known else ""
            raise laid.finder.refusal(f"a loop whose number of rounds is not known{what}", loop.latch, UNKNOWN_ROUNDS if asker else NO_RMAPCTL)
    return layout, said


def take_bound(laid: Laid, loop: Loop, said: Answer) -> bool:
    """Takes the bound of a loop from what is known at its head; False where it is what it was."""
    if loop.asked not in said.known:
        return False
    least, most = said.known[loop.asked]
    if loop.upward is not None and loop.upward.start is not None:
        rounds = loop.upward.rounds(least, most, MAX_BOUND)
        if rounds is None or rounds == loop.bound:
            return False
        laid.finder.set_bound(loop, rounds)
        return True
    if most > MAX_BOUND or not most or most == loop.bound and least:
        return False
    if not least and not laid.finder.put_guard(loop):
        return False
    laid.finder.set_bound(loop, most)
    return True


def check_slots(slots: int) -> None:
    if slots > MAX_SLOTS:
        raise Refusal(f"{slots} slots, and {MAX_SLOTS} are possible", "compile with -Os, unroll less, or loop with AGAIN", 0)


def place(name: str, function: Function | None, source: Source | None, slot: int | None) -> str:
    """Where a refusal is: the file, the function, and the line of C where that is known."""
    if function is None:
        return name
    line = source.line(slot) if source and slot is not None else None
    if line is None or not line.file:
        return f"{name}: {function.name}" + (f", slot {slot}" if slot is not None else "")
    relative = os.path.relpath(line.file)
    where = f"{line.file if relative.startswith('..') else relative}: {function.name}, line {line.number}"
    outer = source.line_of_file(slot)
    return where if outer in (None, line) else f"{source.file}: {function.name}, line {outer.number}, from {where}"
