#!/usr/bin/env python3
"""narrow.py IN.ll OUT.ll: what ir.py made for a processor of 32 bits with the lowest byte first, with the module's numbers and places
as they are: a pointer keeps its 8 bytes of memory, of which the upper four are zeros, and a length has 64 bits inside.

Changes: how a pointer is kept in memory and read from it in a pair, the lengths of memmove and memset, atomic words, which one call
at a time needs not, and the convention for C at the exports and at the heap, whose functions are those of sandbarstove_heap.h. Stops
at what it does not know."""

from __future__ import annotations

import itertools
import re
import sys

NUMBERS = itertools.count()
# A reply of rattle_alloc comes by a pointer on ARM, and in two registers on RISC-V.
HEAP = {
    "thumb": """
declare void @rattle_alloc(ptr sret({ i8, ptr }) align 4, i32, i32)
declare void @rattle_realloc(ptr sret({ i8, ptr }) align 4, ptr, i32, i32, i32)

define internal { i64, i64 } @narrow.alloc(i64 %length, i64 %alignment) {
  %block = alloca { i8, ptr }, align 4
CUT
  call void @rattle_alloc(ptr sret({ i8, ptr }) align 4 %block, i32 %size, i32 %align)
  %it = load { i8, ptr }, ptr %block, align 4
  %ok = extractvalue { i8, ptr } %it, 0
  %at = extractvalue { i8, ptr } %it, 1
TOLD
}

define internal { i64, i64 } @narrow.realloc(ptr %old, i64 %before, i64 %length, i64 %alignment) {
  %block = alloca { i8, ptr }, align 4
CUT
  %kept = trunc i64 %before to i32
  call void @rattle_realloc(ptr sret({ i8, ptr }) align 4 %block, ptr %old, i32 %kept, i32 %size, i32 %align)
  %it = load { i8, ptr }, ptr %block, align 4
  %ok = extractvalue { i8, ptr } %it, 0
  %at = extractvalue { i8, ptr } %it, 1
TOLD
}
""",
    "riscv32": """
declare { i32, ptr } @rattle_alloc(i32, i32)
declare { i32, ptr } @rattle_realloc(ptr, i32, i32, i32)

define internal { i64, i64 } @narrow.alloc(i64 %length, i64 %alignment) {
CUT
  %it = call { i32, ptr } @rattle_alloc(i32 %size, i32 %align)
  %word = extractvalue { i32, ptr } %it, 0
  %ok = trunc i32 %word to i8
  %at = extractvalue { i32, ptr } %it, 1
TOLD
}

define internal { i64, i64 } @narrow.realloc(ptr %old, i64 %before, i64 %length, i64 %alignment) {
CUT
  %kept = trunc i64 %before to i32
  %it = call { i32, ptr } @rattle_realloc(ptr %old, i32 %kept, i32 %size, i32 %align)
  %word = extractvalue { i32, ptr } %it, 0
  %ok = trunc i32 %word to i8
  %at = extractvalue { i32, ptr } %it, 1
TOLD
}
""",
}
# A length over 32 bits becomes the greatest number, which no heap gives.
CUT = """  %most = call i64 @llvm.umin.i64(i64 %length, i64 4294967295)
  %size = trunc i64 %most to i32
  %align = trunc i64 %alignment to i32"""
TOLD = """  %is = and i8 %ok, 1
  %there = zext i8 %is to i64
  %number = ptrtoint ptr %at to i64
  %one = insertvalue { i64, i64 } poison, i64 %there, 0
  %two = insertvalue { i64, i64 } %one, i64 %number, 1
  ret { i64, i64 } %two"""


def stop(what: str) -> None:
    """Prints what is not known."""
    sys.exit(f"portable: {what}: another toolchain's module")


def stored(found: re.Match[str]) -> str:
    """A pointer is stored in 8 bytes."""
    space, what, to = found.groups()
    name = f"%wide.{next(NUMBERS)}"
    return f"{space}{name} = ptrtoint ptr {what} to i64\n{space}store i64 {name}, ptr {to}"


def read_pair(found: re.Match[str]) -> str:
    """A pair with a pointer is read part by part: the second lies 8 bytes after the first."""
    space, name, one, two, at = found.groups()
    pair = f"{{ {one}, {two} }}"
    return "\n".join(space + line for line in (
        f"{name}.one = load {one}, ptr {at}, align 1",
        f"{name}.at = getelementptr i8, ptr {at}, i64 8",
        f"{name}.two = load {two}, ptr {name}.at, align 1",
        f"{name}.half = insertvalue {pair} poison, {one} {name}.one, 0",
        f"{name} = insertvalue {pair} {name}.half, {two} {name}.two, 1"))


def moved(found: re.Match[str]) -> str:
    """The length of memmove or memset is a number of 32 bits."""
    space, call, words, length, rest = found.groups()
    if not length.startswith("%"):
        return f"{space}{call}.i32({words}i32 {length}, {rest}"
    name = f"%cut.{next(NUMBERS)}"
    return f"{space}{name} = trunc i64 {length} to i32\n{space}{call}.i32({words}i32 {name}, {rest}"


def single(text: str) -> str:
    """Atomic words as plain ones."""
    text = re.sub(r"= load atomic i64, (ptr %\w+) seq_cst,", r"= load i64, \1,", text)
    text = re.sub(r"^( *)(%\w+) = atomicrmw sub ptr (%\w+), i64 (%?\w+) seq_cst, align 8$",
                  r"\1\2 = load i64, ptr \3, align 8\n\1\2.new = sub i64 \2, \4\n\1store i64 \2.new, ptr \3, align 8", text, flags=re.M)
    return re.sub(r"^( *)(%\w+) = cmpxchg ptr (%\w+), i64 (%?\w+), i64 (%?\w+) seq_cst seq_cst, align 8$",
                  r"\1\2.old = load i64, ptr \3, align 8\n\1\2.is = icmp eq i64 \2.old, \4\n\1\2.new = select i1 \2.is, i64 \5, i64 \2.old\n"
                  r"\1store i64 \2.new, ptr \3, align 8\n\1\2.half = insertvalue { i64, i1 } poison, i64 \2.old, 0\n"
                  r"\1\2 = insertvalue { i64, i1 } \2.half, i1 \2.is, 1", text, flags=re.M)


def export(found: re.Match[str]) -> str:
    """An export as C calls it: each length has 32 bits."""
    result, name, words = found.groups()
    parts = [part.split(" noundef ") for part in words.split(", ") if part]
    lines = [f"  {at}.long = zext i32 {at} to i64" for kind, at in parts if kind == "i64"]
    taken = ", ".join(f"i32 {at}" if kind == "i64" else f"{kind} {at}" for kind, at in parts)
    handed = ", ".join(f"i64 {at}.long" if kind == "i64" else f"{kind} {at}" for kind, at in parts)
    kind = result.split(" ")[-1]
    code, given = ("", "void") if kind == "void" else ("%code = ", f"{kind} %code")
    return "\n".join([f"define {result} @sandbar_{name}({taken}) {{", *lines, f"  {code}call {kind} @narrow.{name}({handed})",
                      f"  ret {given}", "}", ""])


def narrow(text: str, processor: str) -> str:
    """The text for a processor of 32 bits."""
    if re.search(r"^@.*\bptr\b", text, re.M) or re.search(r"getelementptr (?:inbounds |nuw )*(?!inbounds|nuw|i8,)", text):
        stop("a pointer among the constants, or a place by a type")
    text = text.replace("= alloca ptr,", "= alloca i64,").replace("= ptrtoaddr ptr", "= ptrtoint ptr")
    text = re.sub(r"^( *)store ptr ([^,]+), ptr (.+)$", stored, text, flags=re.M)
    text = re.sub(r"^( *)(%\w+) = load \{ (ptr), (\w+) \}, ptr (%\w+).*$", read_pair, text, flags=re.M)
    text = re.sub(r"^( *)(%\w+) = load \{ (\w+), (ptr) \}, ptr (%\w+).*$", read_pair, text, flags=re.M)
    text = re.sub(r"^( *)(call void @llvm\.mem(?:move|set)\.p0(?:\.p0)?)\.i64\((.*)i64 ([^, ]+), (i1 false\).*)$", moved, text, flags=re.M)
    text = re.sub(r"^declare void @llvm\.mem(?:move|set)\..*\n", "", text, flags=re.M)
    text = single(text)
    if found := re.search(r"store ptr |alloca ptr|(?:load|store) \{[^}]*ptr|llvm\.mem\w+\.p0[.p0]*\.i64|\batomic|cmpxchg|\bfence ", text):
        stop(found[0])
    exports = "".join(export(found) for found in re.finditer(r"^define ((?:\w+ )*\w+) @sandbar_(\w+)\(([^)]*)\)", text, re.M))
    text = re.sub(r"^define (?:noundef )?(?:zeroext )?(\w+) @sandbar_", r"define internal \1 @narrow.", text, flags=re.M)
    text, changed = re.subn(r"^declare .*@rattle_(?:alloc|realloc)\(.*\n", "", text, flags=re.M)
    if changed != 2 or "@sandbar_serve(" not in exports:
        stop("other exports, or another heap")
    text = re.sub(r"@rattle_(alloc|realloc)\(", r"@narrow.\1(", text)
    heap = HEAP[processor].replace("CUT", CUT).replace("TOLD", TOLD)
    more = ("declare void @llvm.memmove.p0.p0.i32(ptr, ptr, i32, i1)", "declare void @llvm.memset.p0.i32(ptr, i8, i32, i1)",
            "declare i64 @llvm.umin.i64(i64, i64)")
    return text + "\n" + exports + heap + "\n".join(more) + "\n"


def main(words: list[str]) -> None:
    """Does what the first line says."""
    source, to = words
    with open(source, encoding="utf-8") as file:
        text = file.read()
    triple = re.search(r'^target triple = "(\w+?)(?:v7\w*)?-', text, re.M)
    if triple is None or triple[1] not in HEAP:
        stop("no processor of 32 bits that is known")
    with open(to, "w", encoding="utf-8") as file:
        file.write(narrow(text, triple[1]))


if __name__ == "__main__":
    main(sys.argv[1:])
