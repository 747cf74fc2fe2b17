"""From a file of C, or an object, to an image that may judge: compiled, made a text, assembled and verified."""
from __future__ import annotations

import os
import re
import shutil
import subprocess
import tempfile
from pathlib import Path

from objects.asked import Asker
from objects.lines import maps_of, with_lines
from objects.program import program_of
from objects.refusal import Refusal

HEADERS = Path(__file__).resolve().parent.parent.parent / "include"
COMPILERS = ("clang-19", "clang-16", "clang-14", "clang", "bpf-gcc")
FLAGS = ("-target", "bpf", "-mcpu=v3", "-O2", "-ffreestanding", "-fno-jump-tables", "-g", "-Wall")
# Those of gcc: it unrolls every loop, and makes pointers that walk of indices, unless it is asked not to.
GCC_FLAGS = ("-fno-ivopts", "-fno-unroll-loops", "-fno-unroll-all-loops")
FLAGS_OF_GCC = ("-O2", "-ffreestanding", *GCC_FLAGS, "-g", "-Wall")
BYTES_IN_LINE = 16


def compiled(source: str, compiler: str | None) -> bytes:
    """The object that a compiler makes of a file of C. What is wrong with the file it says itself."""
    command = compiler or next((it for it in COMPILERS if shutil.which(it)), None)
    if command is None:
        raise Refusal("there is no compiler for BPF here", "install one, as clang-19 or gcc-bpf, or name it by --compiler")
    flags = FLAGS_OF_GCC if "gcc" in os.path.basename(command) else FLAGS
    headers = [f"-I{HEADERS}"] if HEADERS.is_dir() else []
    with tempfile.TemporaryDirectory() as folder:
        made = Path(folder) / "program.o"
        try:
            done = subprocess.run([command, *flags, *headers, "-c", source, "-o", str(made)], check=False)
        except OSError as error:
            raise Refusal(f"{command}: {error.strerror}", "name a compiler for BPF by --compiler") from None
        if done.returncode:
            raise Refusal(f"{source}: {command} makes no object of it", "correct what it names")
        return made.read_bytes()


def image_of(text: str, name: str, node: tuple[str, ...], asker: Asker) -> tuple[bytes | None, list[str]]:
    """The image of a text, if it may judge on the node of these words for rmapctl; and what `why` prints of it, with the lines of C."""
    with tempfile.TemporaryDirectory() as folder:
        one, other = os.path.join(folder, "program.bpf"), os.path.join(folder, "program.img")
        Path(one).write_text(text, encoding="utf-8")
        made = asker.run("asm", one, other)
        if not made[:1] or not made[0].startswith("slots "):
            raise Refusal(f"{name}: rmapctl asm: {' '.join(made) or 'nothing was printed'}", "name another rmapctl by --rmapctl")
        maps = maps_of(text)
        said = asker.run("why", other, *(node or (("--maps", maps) if maps else ())))
        is_accepted = bool(said) and said[0].startswith("accepted ")
        return Path(other).read_bytes() if is_accepted else None, with_lines(said, text, name)


def name_in_c(path: str) -> str:
    """The name of a file as C may have one."""
    name = re.sub(r"\W", "_", Path(path).stem, flags=re.ASCII)
    return f"_{name}" if not name or name[0].isdigit() else name


def header_of(text: str, image: bytes, source: str) -> str:
    """A header of C with an image and its maps, as sandbar_open takes them."""
    name = name_in_c(source)
    maps = [(it.rstrip("p"), int(it.endswith("p"))) for it in maps_of(text).split(",") if it]
    rows = ", ".join(f"{{{cells}, {peak}}}" for cells, peak in maps or [("1", 0)])
    lines = [f"/* The image of {os.path.basename(source)}, and the maps that all programs of its node share. */",
             f"#ifndef {name.upper()}_IMAGE_H", f"#define {name.upper()}_IMAGE_H", "", "#include <sandbarstove.h>", "",
             f"#define {name.upper()}_MAPS {len(maps)}", "",
             "/* Without maps it has one row, which is not to be passed. */",
             f"static const sandbar_map {name}_maps[] = {{{rows}}};", "",
             f"static const uint8_t {name}_image[] = {{"]
    lines += ["    " + " ".join(f"0x{it:02X}," for it in image[at:at + BYTES_IN_LINE]) for at in range(0, len(image), BYTES_IN_LINE)]
    return "".join(f"{it}\n" for it in [*lines, "};", "", "#endif"])
