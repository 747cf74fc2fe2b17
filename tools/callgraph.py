"""Functions as objdump prints them: what each calls, and how much stack it has in use there. Read by tools/recursion and link/stack."""

from __future__ import annotations

import re
import shutil
import subprocess
from dataclasses import dataclass, field

HEADER = re.compile(r"^[0-9a-f]+ <(.*)>:$")
INSTRUCTION = re.compile(r"^\s*([0-9a-f]+):\s+([a-z][\w.]*)\s*(.*)$")
INSTRUCTION_LINE = re.compile(r"^\s*[0-9a-f]+:\s+[a-z]", re.MULTILINE)
RELOCATION = re.compile(r"^\s*[0-9a-f]+:\s+(R_\w+)\s+(\S.*)$")
TARGET = re.compile(r"(?:0x)?([0-9a-f]+)\s+<(.*)>")
CALLS = {"x86-64": {"call", "callq"}, "aarch64": {"bl"}, "riscv": {"jal", "jalr"}, "thumb": {"bl", "blx"}}
JUMPS = {
    "x86-64": re.compile(r"j[a-z]+$"),
    "aarch64": re.compile(r"(b|b\.[a-z]+|cbn?z|tbn?z)$"),
    "riscv": re.compile(r"(c\.)?(j|b(eq|ne|lt|ge)u?z?|bleu?|bgtu?|blez|bgtz)$"),
    "thumb": re.compile(r"(b(eq|ne|cs|cc|mi|pl|vs|vc|hi|ls|ge|lt|gt|le)?(\.[nw])?|cbn?z)$"),
}
STOPS = {
    "x86-64": {"ret", "retq", "jmp", "jmpq", "ud2", "int3", "hlt"},
    "aarch64": {"ret", "b", "br", "brk", "udf"},
    "riscv": {"ret", "j", "jr", "unimp", "ebreak"},
    "thumb": {"bx", "b", "b.n", "b.w", "udf"},
}
# What the processor pushes at a call.
RETURN_ADDRESS = {"x86-64": 8, "aarch64": 0, "riscv": 0, "thumb": 0}


class Unknown(Exception):
    """The text of a function is not understood."""


@dataclass
class Instruction:
    """One instruction: where it is, its word, its operands, and the function that a relocation or a target names."""

    address: int
    word: str
    operands: str
    symbol: str = ""


@dataclass
class Function:
    """One function."""

    name: str
    start: int
    code: list[Instruction] = field(default_factory=list)


@dataclass
class Frame:
    """How much stack a function has in use at most, and at each call; a call in the place of a return has the stack of its own caller."""

    most: int
    calls: dict[str, int]
    unknown: int = 0


def disassembled(path: str) -> tuple[str, str]:
    """The processor of a file, and objdump's text of it, by the first that reads it: objdump may know x86-64 alone."""
    tools = [it for it in ("objdump", "llvm-objdump", "aarch64-linux-gnu-objdump", "riscv64-linux-gnu-objdump",
                               "riscv64-unknown-elf-objdump", "arm-none-eabi-objdump") if shutil.which(it)]
    kinds = {"x86-64": "x86-64", "x86_64": "x86-64", "aarch64": "aarch64", "riscv": "riscv", "arm": "thumb"}
    for tool in tools:
        done = subprocess.run([tool, "-d", "-r", "--no-show-raw-insn", path], capture_output=True, text=True, check=False)
        found = re.search(r"file format elf(?:32|64)-(?:little)?(x86-64|x86_64|aarch64|riscv|arm)\b", done.stdout)
        if not done.returncode and found and INSTRUCTION_LINE.search(done.stdout):
            return kinds[found[1]], done.stdout
    if not tools:
        raise OSError("objdump is missing: it is in Debian's binutils, and llvm-objdump, for other processors, in llvm")
    raise OSError(f"{path}: {', '.join(tools)} found no code of x86-64, ARM or RISC-V in it")


def plain(symbol: str) -> str:
    """The name of a function in a relocation or a target: without its section and what is added."""
    return re.sub(r"^\.text\.(?:unlikely\.|hot\.)?|(?:[-+]0x[0-9a-f]+)+$", "", symbol.strip())


def functions(text: str) -> list[Function]:
    """The functions of objdump's text, in order."""
    found: list[Function] = []
    for line in text.splitlines():
        if header := HEADER.match(line):
            if not header[1].startswith((".L", "$")):
                found.append(Function(plain(header[1]), int(line.split()[0], 16)))
        elif not found:
            continue
        elif relocation := RELOCATION.match(line):
            if found[-1].code and relocation[1] != "R_RISCV_RELAX":
                found[-1].code[-1].symbol = relocation[2]
        elif it := INSTRUCTION.match(line):
            found[-1].code.append(Instruction(int(it[1], 16), it[2], re.split(r"\s+(?:# |//)", it[3])[0].strip()))
    return found


def joined(kind: str, function: Function) -> None:
    """Puts the name of what a call in two instructions of RISC-V goes to at the second of them."""
    if kind == "riscv":
        for one, other in zip(function.code, function.code[1:]):
            if one.word == "auipc" and one.symbol and other.word in ("jalr", "jr"):
                one.symbol, other.symbol = "", one.symbol


def goes_to(function: Function, it: Instruction) -> int | str | None:
    """Where a call or a jump goes: an address of the same function, the name of another, or None: where a register says."""
    if it.symbol.startswith(".L"):
        return None
    if it.symbol:
        return plain(it.symbol)
    target = TARGET.search(it.operands)
    if target is None:
        return None
    place = int(target[1], 16)
    if function.code[0].address < place <= function.code[-1].address or (place == function.start and plain(target[2]) == function.name):
        return place
    return plain(target[2])


def calls_of(kind: str, function: Function) -> set[str]:
    """The functions that a function calls, or jumps to in place of a return. A jump to its own beginning is a loop."""
    joined(kind, function)
    found = set()
    for it in function.code:
        is_call = it.word in CALLS[kind]
        if is_call or it.word in STOPS[kind] or JUMPS[kind].match(it.word):
            place = goes_to(function, it)
            if isinstance(place, str):
                found.add(place)
            elif is_call and place == function.start:
                found.add(function.name)
    return found


def graph_of(path: str) -> dict[str, set[str]]:
    """What each function of a program or an archive calls."""
    kind, text = disassembled(path)
    graph: dict[str, set[str]] = {}
    for function in functions(text):
        if function.code:
            graph.setdefault(function.name, set()).update(calls_of(kind, function))
    return graph


def circles(graph: dict[str, set[str]]) -> list[list[str]]:
    """The groups of functions that call themselves, by themselves or by each other: Tarjan's components, without recursion."""
    order: dict[str, int] = {}
    low: dict[str, int] = {}
    stack: list[str] = []
    found = []
    for root in graph:
        work = [(root, iter(sorted(graph[root])))] if root not in order else []
        while work:
            name, rest = work[-1]
            if name not in order:
                order[name] = low[name] = len(order)
                stack.append(name)
            callee = next((it for it in rest if it in graph), None)
            if callee is not None:
                if callee not in order:
                    work.append((callee, iter(sorted(graph[callee]))))
                elif callee in stack:
                    low[name] = min(low[name], order[callee])
                continue
            work.pop()
            if work:
                low[work[-1][0]] = min(low[work[-1][0]], low[name])
            if low[name] == order[name]:
                group = stack[stack.index(name) :]
                del stack[len(stack) - len(group) :]
                if len(group) > 1 or name in graph[name]:
                    found.append(sorted(group))
    return found


class Depth:
    """How much stack is in use at a place of a function, and the registers that hold a place of it or a number."""

    def __init__(self, depth: int) -> None:
        self.depth = depth
        self.places: dict[str, int] = {}
        self.numbers: dict[str, int] = {}

    def copy(self) -> Depth:
        """The same, apart."""
        other = Depth(self.depth)
        other.places, other.numbers = dict(self.places), dict(self.numbers)
        return other


def number(text: str) -> int:
    """A number as objdump prints it."""
    return int(text.lstrip("#$"), 0)


def after_x86(at: Depth, it: Instruction, name: str) -> None:
    """What an instruction of x86-64 does to the stack, in the order of operands of AT&T."""
    word, operands = it.word.rstrip("q") if it.word not in ("subq", "leaveq") else it.word[:-1], it.operands.replace(" ", "")
    if word in ("push", "pop"):
        at.depth += 8 if word == "push" else -8
        if word == "pop" and operands in at.places:
            del at.places[operands]
        return
    if word == "leave":
        at.depth = at.places["%rbp"] - 8
        return
    one = re.fullmatch(r"\$(-?\w+),(%\w+)", operands)
    if word in ("sub", "add") and one and (one[2] == "%rsp" or one[2] in at.places):
        change = number(one[1]) if word == "sub" else -number(one[1])
        if one[2] == "%rsp":
            at.depth += change
        else:
            at.places[one[2]] += change
        return
    two = re.fullmatch(r"(%\w+),(%\w+)", operands)
    if word == "mov" and two and "%rsp" in two.groups():
        if two[1] == "%rsp":
            at.places[two[2]] = at.depth
        else:
            at.depth = at.places[two[1]]
        return
    if word == "cmp" and two and two[2] == "%rsp" and two[1] in at.places:
        at.depth = at.places[two[1]]
        return
    three = re.fullmatch(r"(-?\w*)\((%\w+)\),(%\w+)", operands)
    if word == "lea" and three and three[3] == "%rsp":
        at.depth = (at.depth if three[2] == "%rsp" else at.places[three[2]]) - number(three[1] or "0")
        return
    if word == "lea" and three and three[2] == "%rsp":
        at.places[three[3]] = at.depth - number(three[1] or "0")
        return
    if word == "and" and one and one[2] == "%rsp":
        at.depth += -number(one[1]) - 8
        return
    if operands.endswith(",%rsp") and word not in ("cmp", "test"):
        raise Unknown(f"{name}: {it.word} {it.operands}")


def after_arm(at: Depth, it: Instruction, name: str) -> None:
    """What an instruction of 64-bit ARM does to the stack."""
    operands = it.operands
    if before := re.search(r"\[sp, #(-?\w+)\]!", operands):
        at.depth -= number(before[1])
        return
    if behind := re.search(r"\[sp\], #(-?\w+)", operands):
        at.depth -= number(behind[1])
        return
    moved = re.fullmatch(r"(sp|x\d+), (sp|x\d+), #(\w+)(?:, lsl #(\d+))?", operands)
    if it.word in ("sub", "add") and moved and (moved[2] == "sp" or moved[2] in at.places):
        change = number(moved[3]) << int(moved[4] or 0)
        place = (at.depth if moved[2] == "sp" else at.places[moved[2]]) + (change if it.word == "sub" else -change)
        if moved[1] == "sp":
            at.depth = place
        else:
            at.places[moved[1]] = place
        return
    if it.word == "mov" and operands.startswith("sp, "):
        at.depth = at.places[operands[4:]]
        return
    if it.word == "mov" and operands.endswith(", sp"):
        at.places[operands.split(",")[0]] = at.depth
        return
    if it.word == "cmp" and (compared := re.fullmatch(r"sp, (x\d+)", operands)) and compared[1] in at.places:
        at.depth = at.places[compared[1]]
        return
    if operands.startswith("sp, ") and it.word not in ("cmp", "tst"):
        raise Unknown(f"{name}: {it.word} {it.operands}")


def after_risc(at: Depth, it: Instruction, name: str) -> None:
    """What an instruction of RISC-V does to the stack."""
    word, parts = it.word.removeprefix("c."), it.operands.replace(" ", "").split(",")
    place = {"sp": at.depth, **at.places}
    if word in ("addi", "addi16sp", "addi4spn") and len(parts) == 3 and parts[1] in place:
        set_place(at, parts[0], place[parts[1]] - number(parts[2]))
    elif word in ("add", "sub") and len(parts) == 3 and parts[1] in place and parts[2] in at.numbers:
        change = at.numbers[parts[2]]
        set_place(at, parts[0], place[parts[1]] + (change if word == "sub" else -change))
    elif word == "mv" and len(parts) == 2 and parts[1] in place:
        set_place(at, parts[0], place[parts[1]])
    elif word == "lui":
        high = number(parts[1]) & 0xFFFFF
        at.numbers[parts[0]] = (high - (1 << 20) if high >> 19 else high) << 12
    elif word == "li":
        at.numbers[parts[0]] = number(parts[1])
    elif word in ("addi", "addiw") and len(parts) == 3 and parts[1] in at.numbers:
        at.numbers[parts[0]] = at.numbers[parts[1]] + number(parts[2])
    elif word == "slli" and len(parts) == 3 and parts[1] in at.numbers:
        at.numbers[parts[0]] = at.numbers[parts[1]] << number(parts[2])
    elif parts[0] == "sp" and not JUMPS["riscv"].match(word) and not word.startswith("s"):
        raise Unknown(f"{name}: {it.word} {it.operands}")
    elif not word.startswith("s") and not JUMPS["riscv"].match(word):
        at.numbers.pop(parts[0], None)
        at.places.pop(parts[0], None)


def after_thumb(at: Depth, it: Instruction, name: str) -> None:
    """What an instruction of a Cortex-M takes of the stack; what it gives back does not count."""
    operands = it.operands.replace(" ", "").split("@")[0]
    word = it.word.removesuffix(".w")
    if pushed := re.fullmatch(r"(?:sp!,)?\{([a-z0-9,]+)\}", operands):
        if word in ("push", "stmdb"):
            at.depth += 4 * len(pushed[1].split(","))
    elif word in ("stm", "stmia") and re.fullmatch(r"sp,\{[a-z0-9,]+\}", operands):
        pass  # without `!` it writes upwards from the stack pointer, which stays
    elif before := re.search(r"\[sp,#-(\w+)\]!", operands):
        at.depth += number(before[1])
    elif taken := re.fullmatch(r"sp,(?:sp,)?#(\w+)", operands):
        at.depth += number(taken[1]) if word in ("sub", "subw") else 0
    elif word == "bfc" and (cleared := re.fullmatch(r"(\w+),#0,#(\d+)", operands)) and cleared[1] in at.places:
        at.places[cleared[1]] += (1 << int(cleared[2])) - 1
    elif (moved := re.fullmatch(r"(\w+),(\w+)(?:,#(\w+))?", operands)) and moved[2] in {"sp": at.depth, **at.places} and (
            word.startswith(("mov", "add", "sub"))):
        change = number(moved[3] or "0")
        place = {"sp": at.depth, **at.places}[moved[2]]
        set_place(at, moved[1], place + (change if word.startswith("sub") else -change))
    elif operands.startswith("sp,") and word not in ("cmp", "cmn", "tst"):
        raise Unknown(f"{name}: {it.word} {it.operands}")
    elif not word.startswith(("str", "cmp", "cmn", "tst")):
        at.places.pop(operands.split(",")[0], None)


def set_place(at: Depth, register: str, place: int) -> None:
    """Puts a place of the stack into a register."""
    if register == "sp":
        at.depth = place
    else:
        at.places[register] = place


AFTER = {"x86-64": after_x86, "aarch64": after_arm, "riscv": after_risc, "thumb": after_thumb}


def whole_frame(kind: str, function: Function) -> Frame:
    """How much stack a function has in use at most, if it takes all that it ever takes at once: of RISC-V, whose branches in an
    archive name no place, and of a Cortex-M."""
    frame, at = Frame(0, {}), Depth(0)
    for it in function.code:
        before = at.depth
        if it.word not in CALLS[kind] and not JUMPS[kind].match(it.word) and it.word != "jr":
            AFTER[kind](at, it, function.name)
        at.depth = max(at.depth, before)
    frame.most = at.depth
    for name in calls_of(kind, function):
        frame.calls[name] = frame.most
    frame.unknown = sum(it.word in CALLS[kind] and not it.symbol and not TARGET.search(it.operands) for it in function.code)
    return frame


def frame_of(kind: str, function: Function) -> Frame:
    """How much stack a function has in use, on each way through it; a place that a table of jumps leads to is taken to have what is in
    use where the table is."""
    if kind in ("riscv", "thumb"):
        return whole_frame(kind, function)
    places = {it.address: number for number, it in enumerate(function.code)}
    frame = Frame(RETURN_ADDRESS[kind], {})
    work = [(0, Depth(RETURN_ADDRESS[kind]))]
    tables: list[Depth] = []
    seen: dict[int, int] = {}
    while work or (tables and len(seen) < len(function.code)):
        if not work:
            rest = next(number for number in range(len(function.code)) if number not in seen)
            work.append((rest, max(tables, key=lambda it: it.depth).copy()))
        place, at = work.pop()
        while place < len(function.code) and place not in seen:
            it = function.code[place]
            seen[place] = at.depth
            goes = follow(kind, function, frame, at, it)
            if goes == "table":
                tables.append(at.copy())
            elif isinstance(goes, int) and goes in places:
                work.append((places[goes], at.copy()))
            if it.word in STOPS[kind]:
                break
            place += 1
    return frame


def follow(kind: str, function: Function, frame: Frame, at: Depth, it: Instruction) -> int | str | None:
    """Does one instruction: what it does to the stack, and whom it calls. Where a jump goes; `table`, if a register says."""
    is_call = it.word in CALLS[kind]
    is_jump = not is_call and (bool(JUMPS[kind].match(it.word)) or it.word in ("jr", "br", "jmpq"))
    if not is_call and not is_jump:
        AFTER[kind](at, it, function.name)
        frame.most = max(frame.most, at.depth)
        return None
    goes = goes_to(function, it)
    if isinstance(goes, str):
        used = at.depth if is_call else at.depth - RETURN_ADDRESS[kind]
        frame.calls[goes] = max(frame.calls.get(goes, 0), used)
        return None
    if is_call:
        if goes == function.start:
            frame.calls[function.name] = max(frame.calls.get(function.name, 0), at.depth)
        elif goes is None:
            frame.unknown += 1
        return None
    return "table" if goes is None and it.word not in ("ret", "retq") else goes


def frames_of(path: str) -> tuple[str, dict[str, Frame]]:
    """The processor of an archive, and the frame of each of its functions."""
    kind, text = disassembled(path)
    return kind, {it.name: frame_of(kind, it) for it in functions(text) if it.code}
