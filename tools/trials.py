"""Which wrong bodies of crates/NAME/edits were refused, on which day, for which goal, and over which text. For tools/edits and tools/tried.

A line of crates/NAME/edits/tried is an edit, the day, a sum, and the goal that refused it. The sum is over the edit, the file that it
turns, the proofs of the functions that it turns, and all definitions that the clauses of these functions reach, each without comments
and empty lines. So a line is old only if one of these changed."""

from __future__ import annotations

import datetime
import hashlib
import re
from collections.abc import Iterable, Iterator
from dataclasses import dataclass
from pathlib import Path

import reached
import specs

TOP = specs.TOP
HEAD = "# Written by `tools/edits`: each edit that was refused, the day, a sum over what it was tried over, and the goal.\n"
FUNCTION = re.compile(r"^([ \t]*)(?:pub(?:\([a-z]+\))? )?(?:const |unsafe |extern \"C\" )*fn (\w+)")
OWNER = re.compile(r"^(?:unsafe )?(?:impl|pub trait|trait)\b")
COMMENTS = re.compile(r"^\s*(?://|--).*\n|^\s*\n", re.MULTILINE)
GOALS = (
    re.compile(r"is not proved that .*?\(`([^`]+)`\)"),
    re.compile(r"error: `(?:goal\.)?([^`]+)`"),
    re.compile(r"\(`([\w+-]+)`\)"),
)


def bare(text: str) -> str:
    """A text without its comments and empty lines."""
    return COMMENTS.sub("", text + "\n")


@dataclass(frozen=True)
class Turn:
    """One line that an edit turns."""

    source: Path
    old: str
    new: str


@dataclass(frozen=True)
class Edit:
    """A wrong body: lines of the files of its crate, and what they are turned into."""

    crate: str
    path: Path

    @property
    def name(self) -> str:
        return self.path.stem

    def turns(self) -> Iterator[Turn]:
        """The lines that it turns, in order."""
        source, old = TOP, ""
        for line in self.path.read_text().splitlines():
            word, _, rest = line.partition(":")
            match word:
                case "file":
                    source = TOP / "crates" / self.crate / rest.strip()
                case "old":
                    old = rest[1:]
                case "new":
                    yield Turn(source, old, rest[1:])

    def functions(self) -> list[tuple[Path, tuple[str, ...]]]:
        """The functions with a line that the edit turns, each with its file: a name, after that of its type if it is a method."""
        found = []
        for turn in self.turns():
            before, is_there, _ = turn.source.read_text().partition(turn.old)
            if is_there:
                found += [(turn.source, it) for it in enclosing(before.splitlines(keepends=True))]
        return list(dict.fromkeys(found))

    def wrong(self) -> Iterator[str]:
        """What is wrong with it: each line that it turns stands exactly once in its file, as the lines before left that."""
        texts: dict[Path, str] = {}
        for turn in self.turns():
            if not turn.source.is_file():
                yield f"there is no {turn.source.relative_to(TOP)}"
                continue
            text = texts.setdefault(turn.source, turn.source.read_text())
            if (count := text.count(turn.old)) != 1:
                yield f"{'more than once' if count else 'not'} in its file: {turn.old}"
            texts[turn.source] = text.replace(turn.old, turn.new, 1)


def enclosing(before: list[str]) -> Iterator[tuple[str, ...]]:
    """The function that was begun last in these lines, if one was."""
    for place in range(len(before) - 1, -1, -1):
        if found := FUNCTION.match(before[place]):
            if not found[1]:
                yield (found[2],)
            else:
                heads = [line for line in before[:place] if OWNER.match(line)]
                words = re.sub(r"<[^<>]*>", "", re.sub(r"<[^<>]*>", "", heads[-1])) if heads else ""
                owner = re.findall(r"\w+", words.split(" for ")[-1].split(":")[0].split(" where ")[0].split("{")[0])
                yield (*(it for it in owner[-1:] if it not in ("impl", "trait")), found[2])
            return


@dataclass(frozen=True)
class Trial:
    """A line of a file `tried`."""

    edit: str
    day: str
    sum: str
    goal: str

    def __str__(self) -> str:
        return f"{self.edit} {self.day} {self.sum} {self.goal}\n"


class Sums:
    """What each edit is tried over, as a sum."""

    def __init__(self) -> None:
        self.tree = reached.Tree()

    def of(self, edit: Edit) -> str:
        it = hashlib.sha256()
        for text in self.texts(edit):
            it.update(bare(text).encode())
        return it.hexdigest()[:16]

    def texts(self, edit: Edit) -> Iterator[str]:
        yield edit.path.read_text()
        for source in dict.fromkeys(turn.source for turn in edit.turns()):
            yield source.read_text()
        for source, function in edit.functions():
            yield from proofs_of(edit.crate, source.stem, function[-1])
            yield from self.definitions(edit.crate, function)

    def definitions(self, crate: str, function: tuple[str, ...]) -> Iterator[str]:
        """The definitions, types and constants that the clauses of a function reach, in an order that only their names decide."""
        try:
            whence = self.tree.reach(["::".join((crate, *function))])
        except SystemExit:
            # (a method of a trait: its clauses are in the file of the trait, or are those of the toolchain's)
            return
        for node in sorted(whence, key=lambda node: (node.crate, str(node.path), node.name)):
            match node:
                case reached.Definition():
                    yield from self.pieces(node)
                case reached.Type():
                    yield self.tree.sources[node.crate].declaration(node)
                case reached.Constant():
                    yield f"{node.name} {node.value}"

    def pieces(self, node: reached.Definition) -> Iterator[str]:
        folder = TOP / "crates" / node.crate / "specs"
        module = ".".join(node.path.relative_to(folder).with_suffix("").parts)
        for outer, text in self.tree.files[node.crate, module].bodies[node.name]:
            yield f"{outer} {text}"


def proofs_of(crate: str, module: str, function: str) -> Iterator[str]:
    """The proofs of a function of a module: those in a folder of its name, below that of the module."""
    folder = TOP / "crates" / crate / "proofs"
    for path in sorted(folder.rglob("*.antt")):
        parts = [part.lstrip("+") for part in path.relative_to(folder).parts[:-1]]
        if function in parts and (module in parts or module == "lib"):
            yield path.read_text()


def edits_of(crate: str) -> list[Edit]:
    """The edits of a crate, by name."""
    return [Edit(crate, path) for path in sorted((TOP / "crates" / crate / "edits").glob("*.edit"))]


def crates() -> list[str]:
    """The crates that have edits, lowest first."""
    return [crate for crate in specs.crates() if edits_of(crate)]


def trials_of(crate: str) -> dict[str, Trial]:
    """What stands in the file of a crate."""
    path = TOP / "crates" / crate / "edits" / "tried"
    lines = path.read_text().splitlines() if path.exists() else []
    rows = [line.split(maxsplit=3) for line in lines if not line.startswith("#")]
    return {row[0]: Trial(*row) for row in rows if len(row) == 4}


def old(crate: str, sums: Sums) -> list[Edit]:
    """The edits of a crate that were never refused, or over another text."""
    trials = trials_of(crate)
    return [it for it in edits_of(crate) if it.name not in trials or trials[it.name].sum != sums.of(it)]


def goal_in(line: str) -> str:
    """The goal for which an edit was refused, as the toolchain's line has it; `-` if it names none."""
    return next((found[1] for goal in GOALS if (found := goal.search(line))), "-")


def write(crate: str, goals: dict[str, str], sums: Sums) -> None:
    """Writes the lines of the edits that were refused now, for these goals; the lines of other edits that stand stay."""
    day = datetime.date.today().isoformat()
    edits = {it.name: it for it in edits_of(crate)}
    trials = trials_of(crate)
    trials |= {name: Trial(name, day, sums.of(edits[name]), goal) for name, goal in goals.items()}
    kept: Iterable[Trial] = (trials[name] for name in edits if name in trials)
    (TOP / "crates" / crate / "edits" / "tried").write_text(HEAD + "".join(map(str, kept)))
