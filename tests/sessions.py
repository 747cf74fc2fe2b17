"""Cases: sessions in text, which are done in a room and compared with what comes.

A case begins with a line `== ` and what it shows, and is done in a fresh room; what stands before the first case of a file is
done before each. Lines with a sign in front begin a part of a case:

- `-- NAME` or `$ cat NAME` and the lines of a file, or `-- NAME hex` and its bytes in hexadecimal digits;
- `$ WORDS` or `$ rmapctl WORDS`, a job. Of the lines below, those that begin with `>` are standard input, the file `-`. All
  others are what is printed, up to a line `[N]` or `[status N]` with the exit status, where that is not 0. Lines behind them that
  begin with `! ` are standard error, which is not looked at where there is none; at status 2 it then belongs to what is printed.
  A line `!` says that nothing comes there.
  A last line that ends in `...` stands for any more; a line `...` before others is refused. Between two quote marks a space is a part of a word.
  `$ hex NAME` prints the bytes of a file, or `no file`. Between jobs there may be ` | `, and behind the last ` > NAME`.
  Of `live --frames` a line `sent` and digits is printed for each frame, and what standard error tells between them.

Usage: tests/sessions.py FILE..   reads the cases of these files and does none; ends with status 1 if one cannot be read

A line `(N times)` repeats the line above it, and in a line `{DIGITS*N}` repeats the digits; a brace with digits alone is
refused before `;`, and other braces stand for themselves. A line that begins with `#` and a space says something, and empty lines at
the end of a part do not count.
"""
from __future__ import annotations

import re
import sys
from collections.abc import Iterable, Iterator
from dataclasses import dataclass, field
from pathlib import Path

from rmapctl import Done, Room

# The exit status of words that are no job.
MISUSED = 2

# The first bytes of frames; anything above begins a line of text.
FLAGS = 9

# How many bytes of a frame stand before its packet, of which the last ten are the packet's length.
HEAD = 12


class BadCase(Exception):
    """A case that cannot be read, for a reason that the text says."""


@dataclass
class Part:
    """A file or a job of a case, and the lines below its head."""
    head: str
    words: str
    is_job: bool
    given: str = ""
    lines: str = ""
    told: str = ""
    is_quiet: bool = False
    status: int = 0
    shown: list[str] = field(default_factory=list)
    last: str | None = None
    empty: int = 0

    def take(self, line: str) -> None:
        """Takes the next line."""
        if not self.is_job or line.startswith(">"):
            self.shown.append(line)
        if line == "":
            self.empty += 1
        elif count := re.fullmatch(r"\((\d+) times\)", line):
            self.repeat(int(count[1]))
        elif self.is_job and line.startswith("[") and line.endswith("]"):
            self.status = status_of(line)
        else:
            self.last = line
            self.put(line)

    def repeat(self, count: int) -> None:
        if self.last is None:
            raise BadCase("nothing to repeat")
        for _ in range(1, count):
            self.put(self.last)

    def put(self, line: str) -> None:
        """Puts a line where it belongs."""
        if line.startswith(">"):
            self.given += spelled(line[1:].removeprefix(" "))
        elif self.is_job and line == "!":
            self.is_quiet = True
        elif self.is_job and line.startswith("! "):
            self.told = self.more(self.told) + spelled(line[2:])
        else:
            self.lines = self.more(self.lines) + "\n" * self.empty + spelled(line)
            self.empty = 0

    def more(self, lines: str) -> str:
        """These lines, after which another comes."""
        if self.is_job and f"\n{lines}".endswith("\n...\n"):
            raise BadCase(f"a line after `...`: {self.head}")
        return lines


def status_of(line: str) -> int:
    """The exit status that a line in brackets has."""
    status = re.fullmatch(r"\[(?:status )?(\d+)\]", line)
    if status is None:
        raise BadCase(f"no status: {line}")
    return int(status[1])


def spelled(line: str) -> str:
    """The line that is written so, with its end."""
    line = re.sub(r"\{([^{*]*)\*(\d+)\}", lambda it: it[1] * int(it[2]), line)
    if re.search(r"\{([0-9A-Fa-f]+(\*|\}|$)|\*)", line.partition(";")[0]):
        raise BadCase(f"a brace without a star and a number: {line}")
    return line + "\n"


def words_of(line: str) -> list[str]:
    """The words of a line."""
    words = []
    for place, part in enumerate(line.split('"')):
        words += [part] if place % 2 else part.split()
    return words


def part_of(line: str) -> Part | None:
    """The part that a line begins, or None."""
    if line in ("$", "$ rmapctl"):
        return Part(line, "", is_job=True)
    for sign in ("-- ", "$ cat "):
        if line.startswith(sign):
            return Part(line, line.removeprefix(sign), is_job=False)
    if line.startswith("$ "):
        return Part(line, line[2:].removeprefix("rmapctl "), is_job=True)
    return None


def parts_of(lines: Iterable[str]) -> Iterator[Part]:
    """The parts of a case."""
    part = None
    for line in lines:
        if line == "#" or line.startswith("# "):
            continue
        if begun := part_of(line):
            if part:
                yield part
            part = begun
        elif part:
            part.take(line)
        elif line:
            raise BadCase(f"a line of no part: {line}")
    if part:
        yield part


@dataclass(frozen=True)
class Case:
    """A case of a file: what it shows, and its lines with those that stand before each."""
    shows: str
    lines: list[str]


def cases_of(text: str) -> list[Case]:
    """The cases of a file."""
    before, *rest = re.split(r"^== ", text, flags=re.MULTILINE)
    cases = []
    for it in rest:
        shows, *lines = it.splitlines()
        if not any(line.startswith("$") for line in lines):
            raise BadCase(f"{shows}: no job")
        cases.append(Case(shows, before.splitlines() + lines))
    if not cases:
        raise BadCase("no case")
    return cases


def frames_as_lines(sent: bytes) -> bytes:
    """What came of a talk in frames: a line for each frame, and the lines that were told between them."""
    lines = []
    while sent:
        if sent[0] < FLAGS:
            end = HEAD + int.from_bytes(sent[2:HEAD], "big")
            lines.append(b"sent " + sent[:end].hex().upper().encode() + b"\n")
        else:
            end = sent.find(b"\n") + 1 or len(sent)
            lines.append(sent[:end])
        sent = sent[end:]
    return b"".join(lines)


def agrees(came: bytes, wanted: str) -> bool:
    """Whether what came is what is wanted: all of it, or as far as a line `...`."""
    if wanted.endswith("...\n"):
        return came.startswith(wanted.removesuffix("...\n").encode())
    return came == wanted.encode()


@dataclass
class Session:
    """A case that is done: the room, what stands in standard input, and the first difference."""
    room: Room
    given: bytes = b""
    difference: str | None = None
    transcript: list[str] = field(default_factory=list)

    def do(self, part: Part) -> None:
        """Does a part."""
        self.transcript += [part.head, *part.shown]
        if not part.is_job:
            self.put(part.words, part.lines)
            return
        if part.given:
            self.given = part.given.encode()
        done = self.kept(part.words)
        if done.status == MISUSED and not part.told and not part.is_quiet:
            done = Done(done.out + done.err, b"", done.status)
        came, told = done.out.decode(errors="replace"), done.err.decode(errors="replace")
        self.transcript += block(came, told, done.status).removesuffix("[0]").splitlines()
        wanted = "" if part.is_quiet else part.told or "...\n"
        if not (agrees(done.out, part.lines) and agrees(done.err, wanted) and done.status == part.status):
            self.note(part, block(came, told, done.status))

    def put(self, name: str, lines: str) -> None:
        """Puts a file into the room."""
        content = lines.encode()
        if name.endswith(" hex"):
            name, content = name.removesuffix(" hex"), bytes.fromhex(lines)
        if name == "-":
            self.given = content
        else:
            self.room.put(name, content)

    def kept(self, line: str) -> Done:
        """What comes of the jobs of a line, behind which there may be ` > ` and a file, into which goes what is printed."""
        jobs, _, name = line.partition(" > ")
        done = self.piped(jobs.split(" | "))
        if name:
            self.room.put(name, done.out)
            return Done(b"", done.err, done.status)
        return done

    def piped(self, jobs: list[str]) -> Done:
        """What comes of the last of these jobs; what each other prints is standard input of the next."""
        *before, last = [job.removeprefix("rmapctl ") for job in jobs]
        for job in before:
            self.given = self.done(job).out
        return self.done(last)

    def done(self, job: str) -> Done:
        """What comes of one job."""
        if job.startswith("hex "):
            content = self.room.content(job.removeprefix("hex "))
            return Done(b"no file\n" if content is None else content.hex().encode() + b"\n", b"", 0)
        words = words_of(job)
        if words[:1] == ["live"] and "--frames" in words:
            done = self.room.job(*words, given=self.given, joined=True)
            return Done(frames_as_lines(done.out), b"", done.status)
        return self.room.job(*words, given=self.given)

    def note(self, part: Part, came: str) -> None:
        """Notes what came in place of what is wanted, unless an earlier job differed."""
        if self.difference is None:
            wanted = block(part.lines, part.told, part.status)
            self.difference = f"$ {part.words}\nwanted:\n{wanted}\ncame:\n{came}"


def block(printed: str, told: str, status: int) -> str:
    """What a job printed, told on standard error and ended with, as a case has it."""
    return printed + "".join(f"! {line}\n" for line in told.splitlines()) + f"[{status}]"


def done_in(room: Room, case: Case) -> Session:
    """The case, done in a room."""
    session = Session(room)
    for part in parts_of(case.lines):
        session.do(part)
    return session


def main(names: list[str]) -> int:
    """Reads the cases of these files, and prints which cannot be read."""
    faults = []
    for name in names:
        try:
            for case in cases_of(Path(name).read_text(encoding="utf-8")):
                list(parts_of(case.lines))
        except (BadCase, OSError, UnicodeDecodeError) as error:
            faults.append(f"{name}: {error}")
    print(*faults, sep="\n", end="\n" * bool(faults))
    return int(bool(faults))


if __name__ == "__main__":
    sys.exit(main(sys.argv[1:]))
