#!/usr/bin/env python3
"""Jobs to which memory is refused: each request of each job in turn, and, in runs, one that is drawn and all after it.

A job prints what it prints with ample memory, or a beginning of that, in whole parts, and then one fault of memory. `tools/refuse.c`
stands before the C library's allocator; it is compiled by `cc`, or by the compiler of the toolchain where there is none.
"""
import re
import shutil
import subprocess
import sys
import tempfile
from collections import Counter
from collections.abc import Iterator
from dataclasses import dataclass, field
from itertools import count
from pathlib import Path
from random import Random

sys.dont_write_bytecode = True
sys.path.insert(0, str(Path(__file__).resolve().parent.parent))
from generator import main
from rmapctl import TOP, Differs, Done, Room
from sessions import frames_as_lines

# How many runs the gate does, and which request none has.
RUNS, MOST = 100, 440

# The line that tools/refuse.c writes at the end.
COUNTS = re.compile(rb"marks 0 requests (\d+) bytes \d+\n")

# A program that draws a ticket of the first cell of map 0, and one that reads a register that nothing wrote.
DRAWS = bytes.fromhex("42504641 0100 0500 0400 000000000000 1851000000000000 0000000000000000 b702000000000000 8500000002000000 "
                      "9500000000000000")
UNSET = bytes.fromhex("42504641 0100 0200 0200 000000000000 bf40000000000000 9500000000000000")

# A program that says yes, and a node whose bank begins with bytes, for which that program is published.
YES = bytes.fromhex("42504641 0100 0200 0200 000000000000 b700000000000000 9500000000000000")
OWN = """\
[[bank]]
base = 0xA0000000
size = 4096
journal = 2
contents = "begin"
[[publish]]
slot = 3
image = "yes.img"
"""

# A node of two ports whose bank begins with zeros, for which that program is published.
ZEROS = """\
ports = 2
[[bank]]
base = 0xA0000000
size = 4096
journal = 4
[[publish]]
slot = 2
image = "yes.img"
"""

READ = "0 FE014C0067000100A0000000000010C9 EOP\n"
REPLY = "0 67010C00FE0001000000106D0000000000000000000000000000000000 EOP\n"

# Faults of memory, but those of lines.
FAULTS = re.compile(r"no memory|node fault [789]|cannot read \S+|cannot write (?:\S+|standard output)|image fault 8 slot 0|refused V17 slot 0|"
                    r"policy fault 3|line (\d+) fault 5")


@dataclass(frozen=True)
class Job:
    """A job: its files and its input, and what it prints. Each part has first what is printed with ample memory, and then what
    may stand for it where memory was refused. So many lines are read before anything is printed."""
    words: str
    parts: list[tuple[str, ...]]
    files: dict[str, str | bytes] = field(default_factory=dict)
    given: str | bytes = b""
    status: int = 0
    writes: str | None = None
    ahead: int = 1


# The plain write, and a program that is staged and loaded, as events.
EVENTS = """\
take 0 FE016C0067000000A00000000000109F0123456789ABCDEF101112131415161756 EOP
effect 0
take 0 FE016C00670001FF000000000000201942504641010002000200000000000000B700000000000000950000000000000021 EOP
effect 0
take 0 FE016C00670002FF000100000000046501000020B4 EOP
publish 0
"""

OUTCOMES = [("taken 0\n",), ("done 0 67012C00FE0000ED\n",), ("taken 0\n",), ("done 0 67012C00FE00017C\n",), ("taken 0\n",),
            ("done 0 67012C00FE00020E\n",)]

# Two packets at port 1: one that its header ends, and the plain read; and what `trace` prints of each.
AT_ONE = "1 FE014C0067000700A000000000001000 EOP\n1 FE014C0067000100A0000000000010C9 EOP\n"

TRACED = [("1 discard 4\n",), ("""\
1 taken slot 0 generation 0
    0: mov r0, 0                  r0 = 0
    1: exit                       verdict 0 after 2 steps, budget 2
1 67010C00FE0001000000106D0000000000000000000000000000000000 EOP
""",)]

WHY = [("refused V5 slot 0\nslot 0: mov r0, r4\n",), ("""\
    r1 front+0, r2 tail+0, r3 0 to 31, r10 stack+0
    On some way to this slot nothing wrote the register that the instruction reads. At entry r1, r2, r3 and r10 are
    set, and no other; a call of a helper unsets r1 to r5.
    Write the register before the branch, or on each way to this slot.
""", "")]

# A write, a bad line, and the journal.
TALK = "0 FE016C0067000100A0000010000002411122A3 EOP\n0 FE01 eop\njournal\n"

ANSWERS = [("0 67012C00FE00017C EOP\n", "line 1 fault 5\n"), ("line 2 fault 3\n", "line 2 fault 5\n"),
           ("journal 0 0 0 0 0 FE016C0067000100A0000010000002411122A3 EOP\njournal 1 entries\n", "journal 0 entries\n"),
           ("journal 0 entries\n",)]

AT_ONCE = [("entry 00 0 0 0 0 0 FE016C0067000100A0000010000002411122A3 EOP\n0 67012C00FE00017C EOP\n", "line 1 fault 5\n"),
           ("line 2 fault 3\n", "line 2 fault 5\n"), ("journal 0 entries\n",), ("journal 0 entries\n",)]

# A write, a time code, a piece of a read behind a path, with a reserved byte that is not 0, a frame for a bridge, the rest of the
# read, and two bytes that are no packet.
FRAMES = bytes.fromhex("000000000000000000000013FE016C0067000100A0000010000002411122A3 3000000000000000000000020500 "
                       "02AA0000000000000000000B0102FE014C0067000200A0 3800000000000000000000020100 "
                       "0000000000000000000000070000100000024F 000000000000000000000002FE01")

DUE = [("sent 00000000000000000000000867012C00FE00017C\n",), ("frame 4 fault 1\n",),
       ("sent 00000000000000000000000F67010C00FE000200000002681122A3\n",), ("frame 6 discard 1\n",),
       ("journal 0 0 0 0 0 FE016C0067000100A0000010000002411122A3 EOP\n"
        "journal 0 1 0 0 0 FE014C0067000200A00000100000024F EOP\njournal 2 entries\n",)]

DUE_AT_ONCE = [("sent 00000000000000000000000867012C00FE00017C\n",), ("entry 00 0 0 0 0 0 FE016C0067000100A0000010000002411122A3 EOP\n",),
               ("frame 4 fault 1\n",), ("sent 00000000000000000000000F67010C00FE000200000002681122A3\n",),
               ("entry 00 0 1 0 0 0 FE014C0067000200A00000100000024F EOP\n",), ("frame 6 discard 1\n",), ("journal 0 entries\n",)]

# A reply that finds no memory is lost.
SERVED = [(REPLY, ""), (REPLY.replace("0", "1", 1), ""), ("discarded 0 lost 0\n", "discarded 0 lost 1\n", "discarded 0 lost 2\n")]

JOBS = [
    Job("judge lines", [(REPLY,)], {"lines": READ}),
    Job("judge lines --node own.toml", [(REPLY,)], {"lines": READ, "own.toml": OWN, "begin": b"\0\0", "yes.img": YES}),
    Job("decide lines table --node own.toml", [("0 rule 1 verdict 0\n",)],
        {"lines": READ, "own.toml": OWN, "table": "read * * * 00000000 FFFFFFFF - 0\n"}),
    Job("judge pieces", [(REPLY,)], {"pieces": READ.replace("EOP", "PART") + "0 EOP\n"}, ahead=2),
    Job("policy table out --maps 1", [("slots 30\n",)], {"table": "write * * * 00000000 FFFFFFFF 0:0:5 0\n"}, writes="out"),
    Job("dis draws", [(".budget 4\nldmap r1, 0\nmov r2, 0\ncall 2\nexit\n; maps 1\n",)], {"draws": DRAWS}),
    Job("why draws --maps 1", [("accepted weight 4 budget 4\n",), ("maps 1\n", "")], {"draws": DRAWS}),
    Job("weigh draws --maps 1 --ns 15,14,6,2", [("division 0\ncall 1\njump 0\nrest 3\nweight 4\nat most 20 ns\n",)],
        {"draws": DRAWS}),
    Job("why unset", WHY, {"unset": UNSET}, status=1),
    Job("sim events", OUTCOMES, {"events": EVENTS}),
    Job("trace lines --ports 2", TRACED, {"lines": AT_ONE}),
    Job("serve lines --node own.toml", [(REPLY, ""), ("discarded 0 lost 0\n", "discarded 0 lost 1\n")],
        {"lines": READ, "own.toml": OWN, "begin": b"\0\0", "yes.img": YES}),
    Job("sim events --node zeros.toml", OUTCOMES, {"events": EVENTS, "zeros.toml": ZEROS, "yes.img": YES}),
    Job("trace lines --node zeros.toml", TRACED, {"lines": AT_ONE, "zeros.toml": ZEROS, "yes.img": YES}),
    Job("serve lines --ports 2", SERVED, {"lines": READ + READ.replace("0", "1", 1)}, ahead=2),
    Job("live", ANSWERS, given=TALK, status=1),
    Job("live --scrub 1", ANSWERS, given=TALK, status=1),
    Job("live --entries", AT_ONCE, given=TALK, status=1),
    Job("live --frames", DUE, given=FRAMES),
    Job("live --frames --entries", DUE_AT_ONCE, given=FRAMES),
]


def is_fault(text: str, lines: range) -> bool:
    """Whether this is a fault of memory, maybe with its explanation, and where it is of a line, of one of these."""
    first, *more = text.splitlines()
    fault = FAULTS.fullmatch(first)
    if fault is None or not all(it.startswith("    ") or it == "maps 1" for it in more):
        return False
    return fault[1] is None or int(fault[1]) in lines


def is_right(job: Job, printed: str, done: Done) -> bool:
    """Whether a job may come to this where memory was refused once."""
    rest, place = printed, 0
    while place < len(job.parts):
        part = next((it for it in job.parts[place] if rest.startswith(it)), None)
        if part is None:
            break
        rest, place = rest.removeprefix(part), place + 1
    if rest == "" and place == len(job.parts):
        lost = re.search(r" lost (\d+)\n$", printed)
        return done.status == job.status and (lost is None or printed.count(" EOP\n") + int(lost[1]) == len(job.parts) - 1)
    if rest == "":
        # (memory for the words themselves is refused on standard error)
        faults = (b"cannot write standard output\n", b"no memory\n") if printed == "" else (b"cannot write standard output\n",)
        return done.status == 1 and done.err.startswith(faults)
    lines = range(1, job.ahead + 1) if rest == printed else range(place + 1, place + 2)
    return done.status == 1 and is_fault(rest, lines)


@dataclass(frozen=True)
class Refused:
    """What came of a job to which memory was refused, and how often it asked for some."""
    job: Job
    done: Done
    printed: str
    requests: int
    others: bytes = b""

    def __str__(self) -> str:
        return f"$ {self.job.words}\ncame:\n{self.printed}[{self.done.status}]"


def refused(room: Room, job: Job, **numbers: int) -> Refused:
    """Does a job under tools/refuse.c with these numbers."""
    for name, content in job.files.items():
        room.put(name, content)
    environment = {"LD_PRELOAD": LIBRARY, "WHOLE": "1", **{name: str(number) for name, number in numbers.items()}}
    are_frames = "--frames" in job.words
    done = room.job(*job.words.split(), given=job.given, joined=are_frames, environment=environment)
    counts = COUNTS.search(done.out + done.err)
    if counts is None:
        raise Differs(f"$ {job.words}\nended with status {done.status}: {done.out + done.err!r}")
    out = COUNTS.sub(b"", done.out)
    if not are_frames:
        return Refused(job, done, out.decode(), int(counts[1]))
    alone = room.job(*job.words.split(), given=job.given, environment=environment)
    others = [line for line in frames_as_lines(alone.out).splitlines() if not line.startswith(b"sent ")]
    return Refused(job, done, frames_as_lines(out).decode(), int(counts[1]), b"\n".join(others))


def difference(room: Room, came: Refused) -> str | None:
    """What differs in a job to which memory was refused, or None."""
    if not is_right(came.job, came.printed, came.done):
        return str(came)
    if came.others:
        return f"{came}\nand standard output has more than frames: {came.others!r}"
    name = came.job.writes
    if name and (room.content(name) is None) != (came.done.status != 0):
        return f"{came}\nand {name} is otherwise"
    return None


def said_lost(came: Refused) -> str | None:
    """What differs in what standard error says of replies that were lost, or None."""
    found = re.search(r" lost (\d+)\n$", came.printed)
    lost = int(found[1]) if found else 0
    said = [int(number) for number in re.findall(rb"^    lost (\d+): memory to keep a reply was refused$", came.done.err, re.M)]
    return None if said == [lost] * (lost > 0) else f"{came}\nand standard error: {came.done.err!r}"


def each_request(room: Room) -> Iterator[str | None]:
    """Refuses each request of each job in turn, until one is done with none refused."""
    for job in JOBS:
        for number in count():
            came = refused(room, job, REFUSE=number)
            text = difference(room, came) or said_lost(came)
            is_whole = (came.printed, came.done.status) == ("".join(part[0] for part in job.parts), job.status)
            if text is None and number in (0, came.requests + 1) and not is_whole:
                text = f"with nothing refused: {came}"
            yield text and f"request {number}: {text}"
            if 0 < came.requests < number:
                break
            if job.writes:
                (room.folder / job.writes).unlink(missing_ok=True)


def check(random: Random, room: Room, seen: Counter[str]) -> None:
    """Refuses a request of a job, and each after it."""
    job = random.choice(JOBS)
    came = refused(room, job, REFUSE=random.randrange(1, MOST), FROM=1)
    if text := difference(room, came):
        raise Differs(text)
    seen[job.words] += 1


def compiler() -> list[str]:
    """The words of a compiler that makes a shared object."""
    if shutil.which("cc"):
        return ["cc"]
    kit = Path(subprocess.run(["rt", "doc"], capture_output=True, text=True, check=True).stdout.splitlines()[0]).parent
    return [str(kit / "toolchain/bin/clang"), "--target=x86_64-unknown-linux-gnu", "-nostdlib", "-fuse-ld=lld"]


with tempfile.TemporaryDirectory() as folder:
    LIBRARY = f"{folder}/refuse.so"
    subprocess.run([*compiler(), "-O1", "-shared", "-fPIC", "-o", LIBRARY, TOP / "tools/refuse.c"], check=True)
    main(__doc__, check, RUNS, [job.words for job in JOBS], [each_request])
