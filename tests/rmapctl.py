"""Jobs of a built rmapctl: a room of files, and what comes of a job there."""
from __future__ import annotations

import re
import subprocess
import tempfile
from dataclasses import dataclass
from pathlib import Path

TOP = Path(__file__).resolve().parent.parent
PROVED = TOP / "crates" / "rmapctl" / "out" / "rmapctl"

# The name of a file that cannot be written.
LOCKED = "locked"

# The last word of the version of a program that tools/unproved built: cases have the one that is proved.
UNPROVED = re.compile(rb"\A(rmapctl \S+) unproved$", re.M)

# A job that takes longer stands still.
SECONDS = 120


class Differs(Exception):
    """What a job does is not what it has to do, which the text says."""


@dataclass(frozen=True)
class Done:
    """What came of a job: standard output, standard error, and the exit status."""
    out: bytes
    err: bytes
    status: int


class Room:
    """A folder of its own, in which a program does jobs: `with Room(program) as room`."""

    def __init__(self, program: str | Path):
        self.program = str(program)
        self.room = tempfile.TemporaryDirectory(prefix="rmapctl-")
        self.folder = Path(self.room.name)
        (self.folder / LOCKED).mkdir()

    def __enter__(self) -> Room:
        return self

    def __exit__(self, *_: object) -> None:
        self.room.cleanup()

    def put(self, name: str, content: str | bytes) -> None:
        """Writes a file."""
        (self.folder / name).write_bytes(content.encode() if isinstance(content, str) else content)

    def content(self, name: str) -> bytes | None:
        """The bytes of a file, or None where there is none."""
        try:
            return (self.folder / name).read_bytes()
        except FileNotFoundError:
            return None

    def job(self, *words: str, given: str | bytes = b"", joined: bool = False, environment: dict[str, str] | None = None) -> Done:
        """What comes of the job of these words, to which this is given at standard input; `joined` puts what comes on standard
        error between what comes on standard output."""
        told = subprocess.STDOUT if joined else subprocess.PIPE
        given = given.encode() if isinstance(given, str) else given
        try:
            done = subprocess.run([self.program, *words], cwd=self.folder, input=given, stdout=subprocess.PIPE, stderr=told,
                                  env=environment, timeout=SECONDS)
        except subprocess.TimeoutExpired:
            raise Differs(f"$ {' '.join(words)}\ndid not end within {SECONDS} seconds") from None
        return Done(UNPROVED.sub(rb"\1", done.stdout), done.stderr or b"", done.returncode)

    def printed(self, *words: str, given: str | bytes = b"") -> str:
        """What a job prints that has to end with status 0."""
        done = self.job(*words, given=given)
        if done.status != 0:
            raise Differs(f"$ {' '.join(words)}\nstatus {done.status}: {(done.out + done.err).decode(errors='replace')}")
        return done.out.decode()
