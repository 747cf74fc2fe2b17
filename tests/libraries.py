#!/usr/bin/env python3
"""Runs the tests of the libraries: those in the crates of tests.txt, which are built once, without a proof.

Usage: tests/libraries.py [NAME..]             builds and runs all crates of tests.txt that have tests or a stored run, or these
       tests/libraries.py --lay-out [NAME..]   lays out their files, as `rt fmt` does
       tests/libraries.py --tree FOLDER [NAME..]
                                               makes the tree in which they are built, and builds nothing

Proofs are of the libraries; a test shows what its own calls come to, and so a run is all that it needs. The files of these crates end
in .rattle, since `rt ci` wants a proof of each .rt file. Here they are copied into a tree of their own, with the libraries of crates.txt:
all crates with tests become modules of one crate, so that their libraries are compiled once. `rt try` runs it with checks of bounds,
sums and memory, and beside it each program whose output is stored.

Prints what a test or a run that fails printed, and for each crate how many passed. The last line is `N passed, M failed`; the status
is 1 if M is not 0, and 2 if a crate is unknown."""
from __future__ import annotations

import os
import re
import resource
import shutil
import subprocess
import sys
import tempfile
from concurrent.futures import ThreadPoolExecutor
from dataclasses import dataclass, field
from pathlib import Path

TOP = Path(__file__).resolve().parent.parent
SUFFIX = ".rattle"

# The crate in whose modules all tests are, and how many seconds it and each program may run.
JOINED = "libraries"
SECONDS = 600

TEST = re.compile(r"^test (\S+) \.\.\. (ok|FAILED)$", re.M)


@dataclass(frozen=True)
class Crate:
    """A line of crates.txt or tests.txt, and the crate's folder."""
    name: str
    below: tuple[str, ...]
    line: str

    @property
    def folder(self) -> Path:
        return TOP / "crates" / self.name

    def sources(self) -> list[Path]:
        return sorted((self.folder / "src").rglob("*" + SUFFIX))

    @property
    def has_tests(self) -> bool:
        return any("#[test]" in path.read_text(encoding="utf-8") for path in self.sources())

    @property
    def is_program(self) -> bool:
        return (self.folder / "stdout").exists()


@dataclass
class Tally:
    """What came of a crate: how many passed and failed, and what is printed of those that failed."""
    passed: int = 0
    failed: int = 0
    said: list[str] = field(default_factory=list)


def crates_of(name: str) -> list[Crate]:
    """The crates that a list has."""
    rows = [line.partition("#")[0].strip() for line in (TOP / name).read_text(encoding="utf-8").splitlines()]
    parts = [(row, *row.partition(":")[::2]) for row in rows if row]
    return [Crate(head.split()[0], tuple(below.split()), row) for row, head, below in parts]


def copy_proved(crate: Crate, tree: Path) -> None:
    """Copies what a crate of crates.txt is compiled from."""
    for part in ("src", "specs"):
        if (crate.folder / part).exists():
            shutil.copytree(crate.folder / part, tree / "crates" / crate.name / part)


def copy_whole(crate: Crate, tree: Path) -> None:
    """Copies a crate of tests.txt as a crate of its own."""
    for path in crate.sources():
        to = tree / "crates" / path.relative_to(TOP / "crates").with_suffix(".rt")
        to.parent.mkdir(parents=True, exist_ok=True)
        shutil.copyfile(path, to)


def join(crates: list[Crate], tree: Path) -> str:
    """Makes the crate that has each of these as a module, and gives its line."""
    src = tree / "crates" / JOINED / "src"
    for crate in crates:
        for path in crate.sources():
            inside = path.relative_to(crate.folder / "src").with_suffix(".rt")
            to = src / (f"{crate.name}.rt" if str(inside) == "lib.rt" else crate.name / inside)
            to.parent.mkdir(parents=True, exist_ok=True)
            to.write_text(re.sub(r"\bcrate::", f"crate::{crate.name}::", path.read_text(encoding="utf-8")), encoding="utf-8")
    modules = "".join(f"#[cfg(test)]\nmod {crate.name};\n" for crate in crates)
    (src / "lib.rt").write_text("//! All tests of libraries.\n\n" + modules, encoding="utf-8")
    return f"{JOINED}: {' '.join(dict.fromkeys(below for crate in crates for below in crate.below))}"


def make_tree(tree: Path, tested: list[Crate]) -> None:
    """Makes the tree in which the crates of tests.txt are built, of which these have their tests in one crate."""
    (tree / ".git").mkdir(parents=True)
    shutil.copyfile(TOP / "HANDLES", tree / "HANDLES")
    lines = []
    for crate in crates_of("crates.txt"):
        copy_proved(crate, tree)
        lines.append(crate.line)
    for crate in crates_of("tests.txt"):
        if not crate.has_tests:
            copy_whole(crate, tree)
            lines.append(crate.line)
    if tested:
        lines.append(join(tested, tree))
    (tree / "crates.txt").write_text("\n".join(lines) + "\n", encoding="utf-8")


def tried(tree: Path, crate: str, *words: str, given: Path | None = None) -> tuple[str, str]:
    """What `rt try` printed of a crate of the tree, and what on standard error."""
    with open(given or os.devnull, "rb") as stdin:
        ran = subprocess.run(["rt", "try", "--seconds", str(SECONDS), *words], cwd=tree / "crates" / crate, stdin=stdin,
                             capture_output=True)
    return ran.stdout.decode(errors="replace"), ran.stderr.decode(errors="replace")


def try_tests(tree: Path, crates: list[Crate]) -> dict[str, Tally]:
    """Runs the tests of the joined crate."""
    out, error = tried(tree, JOINED, "--test")
    tallies = {crate.name: Tally() for crate in crates}
    for name, result in TEST.findall(out):
        tally = tallies[name.split("::")[0]]
        tally.passed += result == "ok"
        tally.failed += result != "ok"
    said = [line for line in out.splitlines() if not line.endswith("... ok")] + error.splitlines()[-40:]
    if not re.search(r"^test result: ", out, re.M):
        return {JOINED: Tally(failed=1, said=said)}
    for tally in tallies.values():
        if tally.failed:
            tally.said, said = said, []
        elif not tally.passed:
            tally.failed, tally.said = 1, ["no test of it ran"]
    return tallies


def try_program(tree: Path, crate: Crate) -> dict[str, Tally]:
    """Runs a program, and compares what it prints with what is stored."""
    data = crate.folder / "data"
    words = [word for path in sorted(data.rglob("*")) if path.is_file() for word in ("--data", f"{path.relative_to(data)}={path}")]
    given = crate.folder / "stdin"
    out, error = tried(tree, crate.name, *words, given=given if given.exists() else None)
    wanted = (crate.folder / "stdout").read_text(encoding="utf-8")
    ended = re.findall(r"^run=ended status=(\d+)", error, re.M)
    if out == wanted and ended[-1:] == ["0"]:
        return {crate.name: Tally(passed=1)}
    return {crate.name: Tally(failed=1, said=out.splitlines()[-40:] + error.splitlines()[-40:])}


def run(crates: list[Crate]) -> int:
    """Runs these crates, prints what came, and gives the exit status."""
    tested = [crate for crate in crates if crate.has_tests]
    programs = [crate for crate in crates if not crate.has_tests and crate.is_program]
    with tempfile.TemporaryDirectory(prefix="libraries-") as room, ThreadPoolExecutor() as pool:
        tree = Path(room, "tree")
        make_tree(tree, tested)
        runs = [pool.submit(try_tests, tree, tested)] if tested else []
        runs += [pool.submit(try_program, tree, crate) for crate in programs]
        tallies = {name: tally for it in runs for name, tally in it.result().items()}
    for name, tally in tallies.items():
        print("".join(f"    {line}\n" for line in tally.said), end="")
        print(f"{name}: {tally.passed} passed" + (f", {tally.failed} failed" if tally.failed else ""))
    passed, failed = (sum(getattr(tally, word) for tally in tallies.values()) for word in ("passed", "failed"))
    print(f"{passed} passed, {failed} failed")
    return int(failed > 0)


def laid_out(crates: list[Crate]) -> dict[Path, bytes]:
    """The files of these crates that `rt fmt` would change, with what it would make of them."""
    found = {}
    with tempfile.TemporaryDirectory(prefix="libraries-") as room:
        for crate in crates:
            copy_whole(crate, Path(room))
            folder = Path(room, "crates", crate.name)
            Path(room, "crates.txt").write_text(f"{crate.name}:\n", encoding="utf-8")
            subprocess.run(["rt", "fmt"], cwd=folder, check=True, stdout=subprocess.DEVNULL)
            for path in crate.sources():
                laid = (folder / path.relative_to(crate.folder).with_suffix(".rt")).read_bytes()
                if laid != path.read_bytes():
                    found[path] = laid
    return found


def main(words: list[str]) -> int:
    # `tests/run` gives its jobs a small stack, which a compiler does not do with.
    _, most = resource.getrlimit(resource.RLIMIT_STACK)
    resource.setrlimit(resource.RLIMIT_STACK, (most, most))
    every = crates_of("tests.txt")
    is_laid_out, is_tree, failed = words[:1] == ["--lay-out"], words[:1] == ["--tree"] and len(words) > 1, False
    names = words[is_laid_out + 2 * is_tree:]
    if any(name not in {crate.name for crate in every} for name in names):
        print(__doc__.split("\n\n")[1], file=sys.stderr)
        return 2
    crates = [crate for crate in every if not names or crate.name in names]
    if is_tree:
        make_tree(Path(words[1]), [crate for crate in crates if crate.has_tests])
        return 0
    for path, laid in laid_out(crates).items():
        print(path.relative_to(TOP), "is laid out" if is_laid_out else "is not as `rt fmt` lays it out: tests/libraries.py --lay-out")
        if is_laid_out:
            path.write_bytes(laid)
        else:
            failed = True
    return int(failed) if is_laid_out or failed else run(crates)


if __name__ == "__main__":
    sys.exit(main(sys.argv[1:]))
