"""Authorisers in C made at random, for tools/bpf-tries: loops of each form that authors write, one in another, with `break`, `continue`,
`return`, a table of constants and tickets."""
from __future__ import annotations

import random

VALUES = ("front->key", "tail->initiator", "tail->crc", "tail->transaction[1]", "tail->address[3]", "tail->length[2]")
COUNTERS = ("int", "unsigned", "uint64_t", "uint64_t", "uint32_t")

# Compilers are kept from unrolling, so that there is a loop.
AS_IT_STANDS = "#pragma clang loop unroll(disable)\n#pragma clang loop vectorize(disable)\n"

FILE = """#define SANDBAR_SHORT_NAMES
#include "sandbarstove_bpf.h"
COUNTERS(0, quota, 32);
static const {word} table[8] = {{{numbers}}};
uint64_t authorise(const struct front *front, const struct tail *tail, uint64_t port) {{
  const uint8_t *bytes = (const uint8_t *)tail;
  (void)bytes, (void)table;
  uint64_t h = 5381 + port;
{loops}
  return h & 1 ? h & 2 ? 0 : 3 : h & 4 ? 10 : 12;
}}
"""


class Maker:
    """Makes one file."""

    def __init__(self, draw: random.Random):
        self.draw = draw
        self.count = 0

    def file(self) -> str:
        loops = "".join(self.loop(0) for _ in range(self.draw.randrange(1, 3)))
        numbers = ", ".join(str(self.draw.randrange(200)) for _ in range(8))
        return FILE.format(word=self.draw.choice(("uint8_t", "uint16_t", "uint32_t")), numbers=numbers, loops=loops)

    def loop(self, depth: int) -> str:
        """A loop of up to twenty rounds, or of up to five inside another."""
        draw = self.draw
        self.count += 1
        i, n, kind = f"i{self.count}", f"n{self.count}", draw.choice(COUNTERS)
        step = draw.choice(("++", "++", " += 2", " += 3"))
        limit = draw.choice((2, 3, 5) if depth else (3, 5, 8, 11, 12, 12, 20))
        value, few, before = draw.choice(VALUES), min(limit, 12), ""
        form = draw.randrange(8)
        if form == 0:
            head = f"for ({kind} {i} = 0; {i} < {limit}; {i}{step})"
        elif form == 1:
            head = f"for ({kind} {i} = {draw.randrange(3)}; {i} <= {limit - 1}; {i}{step})"
        elif form == 2:
            head = f"for (int {i} = {limit - 1}; {i} >= 0; {i}--)"
        elif form == 3:
            before, limit = f"{kind} {n} = {value} & {draw.choice((3, 7))};", 8
            head = f"for ({kind} {i} = 0; {i} < {n}; {i}{step})"
        elif form == 4:
            before = f"{kind} {n} = {value}; if ({n} > {few}) return {draw.choice((3, 12))};"
            head = f"for ({kind} {i} = 0; {i} < {n}; {i}++)"
        elif form == 5:
            before, limit = f"{kind} {n} = {value} & 7; {kind} {i} = {n};", 8
            head = f"while ({i}--)"
        elif form == 6:
            return (f"uint64_t {i} = {value}; if ({i} == 0) return 10; if ({i} > {few}) return 3;\n"
                    f"L{self.count}: h = h * 7 + bytes[{i} - 1]; if ((h & 0x1FF) == 5) return 12; AGAIN({i}, L{self.count});\n")
        else:
            head = f"for ({kind} {i} = 1; {i} != {limit}; {i}++)"
        return f"{before}\n{AS_IT_STANDS}{head} {{ {self.body(i, depth, limit)} }}\n"

    def body(self, i: str, depth: int, limit: int) -> str:
        """What a round does."""
        return " ".join(self.part(i, depth, limit) for _ in range(self.draw.randrange(1, 4)))

    def part(self, i: str, depth: int, limit: int) -> str:
        draw = self.draw
        index = i if limit <= 12 else f"({i} % 12)" if draw.random() < 0.3 else f"({i} & 7)"
        form = draw.randrange(9)
        if form == 6 and depth < 2:
            return self.loop(depth + 1)
        return {
            0: f"h = h * 33 ^ bytes[{index}];",
            1: f"h += {i} * {draw.randrange(1, 50)};",
            2: f"if (h & {draw.choice((64, 1024, 256))}) continue;",
            3: f"if ((h & 0xFFF) == {draw.randrange(4096)}) break;",
            4: f"if (bytes[{index}] == {draw.randrange(256)}) return {draw.choice((0, 3, 12))};",
            5: f"h ^= table[{i} & 7];",
            7: f"h += ticket(&quota, {i} & 7);",
        }.get(form, f"h = h >> 3 | h << 61; h += {draw.choice(VALUES)};")


def made(draw: random.Random) -> str:
    """The text of a file of C that any compiler takes."""
    return Maker(draw).file()
