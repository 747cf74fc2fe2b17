#!/usr/bin/env python3
"""trim.py IN.c IN.h FOLDER: the C that wasm2c wrote as FOLDER/sandbarstove.c and FOLDER/sandbarstove_module.h, without what asks
for more of a host than rt.h has.

Takes out floats, tables and the two variables that all instances would share, which the module has no use for; makes
memory.fill and memory.copy right where the highest byte comes first, since there wasm2c lays a memory backwards; says how
many pages a module begins with and how large its own stack is; and asks GCC for no warning of what wasm2c writes everywhere.
Stops where the text is not the one that it knows.
"""
import re
import sys

code, header, folder = sys.argv[1:4]
# Values and parameters that nothing uses, and numbers that are taken with another sign, are how wasm2c writes.
QUIET = "#ifdef __GNUC__\n" + "".join(f'#pragma GCC diagnostic ignored "-W{what}"\n' for what in (
    "unused-value", "unused-parameter", "sign-conversion")) + "#endif\n\n"


def stop(what):
    sys.exit(f"portable: {what}: wasm2c of wabt 1.0.32 is known here, and this is another's")


def cut(text, begin, end, by=""):
    """The text with what stands from one line up to another taken out."""
    if text.count(begin) != 1 or end not in text[text.index(begin):]:
        stop(f"no single `{begin.strip()}`")
    at = text.index(begin)
    return text[:at] + by + text[text.index(end, at):]


def replaced(text, old, new):
    if text.count(old) != 1:
        stop(f"no single `{old.strip()}`")
    return text.replace(old, new)


with open(code) as f:
    text = f.read()
with open(header) as f:
    module = f.read()
name = header.rsplit("/", 1)[-1]
text = cut(text, "#include <assert.h>\n", "#define TRAP(x)", '#include "sandbarstove_module.h"\n\n' + QUIET)
text = cut(text, "#define CALL_INDIRECT(", "#define RANGE_CHECK(")
text = re.sub(r"^DEFINE_(?:LOAD|STORE)\(f(?:32|64)_.*\n", "", text, flags=re.M)
text = cut(text, "#define FMIN(x, y)", "static inline void memory_fill(", """#if WABT_BIG_ENDIAN
#define PLACE(memory, at, length) ((memory)->data + ((memory)->size - (at) - (length)))
#else
#define PLACE(memory, at, length) ((memory)->data + (at))
#endif

""")
text = replaced(text, "memset(mem->data + d, val, n)", "memset(PLACE(mem, d, n), (int)val, n)")
text = replaced(text, "memmove(dest->data + dest_addr, src->data + src_addr, n)",
                "memmove(PLACE(dest, dest_addr, n), PLACE(src, src_addr, n), n)")
text = cut(text, "static inline void memory_init(", "static u32 w2c_")
text = replaced(text, "  assert(wasm_rt_is_initialized());\n  assert(s_module_initialized);\n", "")
text = cut(text, "void Z_sandbar_init_module(void) {", "void Z_sandbar_instantiate(")
text = re.sub(r"^(void \w+\([^)]*\) {\n)  return ", r"\1  ", text, flags=re.M)
if re.search(r"\b(?:f32|f64|func_types|CALL_INDIRECT|assert)\b", text):
    stop("a float, a table or an assertion")
pages = re.search(r"wasm_rt_allocate_memory\(&instance->w2c_memory, (\d+), \d+\);", text) or stop("no memory")
stack = re.search(r"init_globals\(Z_sandbar_instance_t\* instance\) {\n  instance->w2c_g0 = (\d+)ull;\n}", text) or stop("no stack")
module = replaced(module, '#include "wasm-rt.h"\n', f'#include "rt.h"\n\n/* How many pages a module begins with. */\n'
                  f"#define SANDBAR_PAGES {pages[1]}u\n\n/* How many bytes of them are the module's own stack. */\n"
                  f"#define SANDBAR_STACK {stack[1]}u\n")
module = replaced(module, "void Z_sandbar_init_module(void);\n", "")
module = re.sub(r"^typedef (?:float f32|double f64);\n", "", module, flags=re.M)
guard = re.search(r"#ifndef (\w+)_GENERATED_", module)[1]
module = module.replace(f"{guard}_GENERATED_", "SANDBARSTOVE_MODULE_H")
with open(f"{folder}/sandbarstove.c", "w") as f:
    f.write(text)
with open(f"{folder}/sandbarstove_module.h", "w") as f:
    f.write(module)
