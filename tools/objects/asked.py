"""What the verifier knows of a program: `rmapctl why` of its text."""
from __future__ import annotations

import os
import re
import shutil
import subprocess
import tempfile
from pathlib import Path
from typing import NamedTuple

TOP = Path(__file__).resolve().parent.parent.parent
SECONDS = 60


class Answer(NamedTuple):
    """The answer of `why`: its lines, the code of a refusal and its slot, and the least and greatest number of each register."""
    lines: list[str]
    code: int | None
    slot: int | None
    known: dict[int, tuple[int, int]]


def found_rmapctl() -> str | None:
    """The command that is named by RMAPCTL, or is on the path, or was built here."""
    for it in (os.environ.get("RMAPCTL"), shutil.which("rmapctl"), TOP / "crates/rmapctl/out/rmapctl"):
        if it and os.access(it, os.X_OK) and os.path.isfile(it):
            return str(it)
    return None


class Asker:
    """Asks rmapctl of texts of programs."""

    def __init__(self, rmapctl: str):
        self.rmapctl = rmapctl

    def why(self, text: str, maps: str) -> Answer | None:
        """What is said of a text, on a node with these maps; None if it is no program or rmapctl cannot be asked."""
        try:
            return answer(self.lines(text, ("--maps", maps) if maps else ()))
        except (OSError, subprocess.TimeoutExpired):
            return None

    def lines(self, text: str, node: tuple[str, ...]) -> list[str]:
        """The lines of `rmapctl why` of a text, on a node in these words, or of `rmapctl asm` if the text is none."""
        with tempfile.TemporaryDirectory() as folder:
            one, other = os.path.join(folder, "program.bpf"), os.path.join(folder, "program.img")
            with open(one, "w", encoding="utf-8") as file:
                file.write(text)
            made = self.run("asm", one, other)
            return self.run("why", other, *node) if made[:1] and made[0].startswith("slots ") else made

    def run(self, *words: str) -> list[str]:
        return subprocess.run([self.rmapctl, *words], capture_output=True, text=True, timeout=SECONDS).stdout.splitlines()


def answer(lines: list[str]) -> Answer | None:
    if not lines:
        return None
    refused = re.match(r"refused V(\d+) slot (\d+)", lines[0])
    if not refused:
        return Answer(lines, None, None, {}) if lines[0].startswith("accepted") else None
    known = {}
    for line in lines[2:3]:
        for register, least, most in re.findall(r"\br(\d+) (0x[0-9a-f]+|\d+)(?: to (0x[0-9a-f]+|\d+))?(?=,|$)", line):
            known[int(register)] = (int(least, 0), int(most or least, 0))
    return Answer(lines, int(refused[1]), int(refused[2]), known)
