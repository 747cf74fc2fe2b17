#!/usr/bin/env python3
"""ir.py IN.ll OUT.ll TRIPLE CLANG: the text of the module that the toolchain makes for x86-64, for another processor of 64 bits
with the same order of bytes.

Changes only: the layout and triple, the attributes that name x86-64's features, how the exports extend what they return,
and, in a module of WebAssembly, the heap, which becomes heap.ll.
"""
import os
import re
import subprocess
import sys

source, to, triple, clang = sys.argv[1:5]
with open(source) as f:
    text = f.read()
empty = [clang, f"--target={triple}", "-x", "c", "-", "-S", "-emit-llvm", "-o", "-"]
of = subprocess.run(empty, input="", capture_output=True, text=True, check=True).stdout
for line in ("datalayout", "triple"):
    wanted = re.search(rf"^target {line} = .*$", of, re.M)[0]
    text, changed = re.subn(rf"^target {line} = .*$", lambda _: wanted, text, flags=re.M)
    if changed != 1:
        sys.exit(f"portable: the module has {changed} lines `target {line}`, not one: another toolchain's")
for attribute in ("target-cpu", "target-features", "probe-stack", "stack-probe-size", "frame-pointer"):
    text = re.sub(rf' "{attribute}"="[^"]*"', "", text)
# A group of attributes may not be empty: one that says nothing stays.
text = re.sub(r"^(attributes #\d+ = \{) *\}$", r'\1 "nothing" }', text, flags=re.M)
# What each convention for C promises of the upper bits of a returned number.
word = "signext " if triple.startswith("riscv64") else ""
text = re.sub(r"^define (noundef )?i8 (@\w+\()", r"define \1zeroext i8 \2", text, flags=re.M)
text = re.sub(r"^define (noundef )?i32 (@\w+\()", rf"define \1{word}i32 \2", text, flags=re.M)
if triple.startswith("wasm"):
    text, changed = re.subn(r"^declare .*@rattle_(?:alloc|realloc|dealloc)\(.*\n", "", text, flags=re.M)
    if changed != 3:
        sys.exit(f"portable: the module asks for {changed} of the heap's three functions: another toolchain's")
    with open(os.path.join(os.path.dirname(os.path.abspath(__file__)), "heap.ll")) as f:
        text += f.read()
    for name, said in (("malloc", "ptr @malloc(i64)"), ("realloc", "ptr @realloc(ptr, i64)"), ("free", "void @free(ptr)")):
        if not re.search(rf"^declare .*@{name}\(", text, re.M):
            text += f"\ndeclare {said}\n"
with open(to, "w") as f:
    f.write(text)
