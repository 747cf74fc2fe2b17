"""The words of the crates: who declares each, and whose word it is at each place of a file. For tools/rename and tools/meanings.

A word is a run of letters, digits and `_` outside comments and texts. A dash, a dot, a prime and the signs of antt end it, so
`returns-in_told-Ask` has the words `returns`, `in_told` and `Ask`."""

from __future__ import annotations

import bisect
import re
from dataclasses import dataclass, field
from functools import cached_property
from pathlib import Path

from surface import CLAUSE, LISTS, TOP, closing, names_of

SOURCES = (".rt", ".rattle")
WORD = re.compile(r"\w+")
# What is no code: comments and texts.
NO_CODE = {
    "rt": re.compile(r"//[^\n]*|/\*[\s\S]*?\*/|b?r(#*)\"[\s\S]*?\"\1|b?\"(?:\\[\s\S]|[^\"\\])*\"|b?'(?:\\[^'\n]*|[^'\\\n])'"),
    "antt": re.compile(r"(?:(?<=\s)|^)--[^\n]*|\{-[\s\S]*?-\}|\"(?:\\.|[^\"\\\n])*\"", re.M),
}
RUST_USE = re.compile(r"^[ \t]*(?:pub(?:\([a-z]+\))? )?use\s+([^;]+);", re.M)
GHOST_USE = re.compile(r"\bghost (?:pub )?use\s+([\w.'+-]+?)(?:\.\{([^}]*)\})?(?:\s+as\s+(\w+))?\s*;")
ANTT_USE = re.compile(r"^[ \t]*(?:unfoldable )?(?:pub )?use\s+([\w'+-]+(?:\.[\w'+-]+)*)(?:\.\{([^}]*)\})?(?:[ \t]+as[ \t]+([\w'-]+))?", re.M)

ITEM = re.compile(r"\b(struct|enum|union|trait|type|fn|const|static|mod|macro_rules!)\s+(?!fn\b)(\w+)")
BODY = re.compile(r"\b(struct|enum)\s+\w+[^{};(]*\{")
GHOST = re.compile(r"\bghost (\w+)\s*[:=]")
LABEL = re.compile(r"\b(?:requires|ensures|decreases)\*? (\w+)\s*\{")
IMPL = re.compile(r"^[ \t]*(?:unsafe )?impl\b([^{;]*)\{", re.M)
# A declaration of antt at the start of a line, or further in, in a module with parameters.
DECLARED = re.compile(
    r"^( *)((?:(?:abbrev|unfoldable|pub) )*)(?:(record|data|module|ruleset) )?([^\s(){}.;,@\"]+)(?=[ \t]*(?:[({:]|$)|\s+:)", re.M
)
INSIDE = re.compile(r"^ +(?:pub )?([^\s(){}.;,@\"|=]+) :", re.M)
KINDS = {"struct": "type", "enum": "type", "union": "type", "trait": "type", "type": "type", "fn": "function", "const": "constant",
         "static": "constant", "mod": "module", "macro_rules!": "macro"}
TACTICS = set("rw simp search grw cc omega grind hlevel assumption first_of cap".split())
# What stands after a dot.
DOTTED = {"field", "method", "function", "variant", "label"}
# A record that is written where it is used: its fields have types.
RECORD = re.compile(r"\brecord \{([^{}]*)\}")
FIELD = re.compile(r"(?:^|;)\s*(\w+) :(?=\s)")
LANGUAGE = set(
    "pub use mod module abbrev unfoldable unfolding data record ruleset where let in elim open package axiom unfold mutual infix infixl"
    " infixr do Type as deriving λ".split()
)


@dataclass(frozen=True)
class Declared:
    """A name that a file declares, as what, at which place, and whether crates above see it."""

    kind: str
    name: str
    at: int
    is_seen: bool
    owner: str = ""


@dataclass(eq=False)
class File:
    """A file of a crate."""

    crate: str
    path: Path
    text: str
    room: str
    of: str = ""

    @property
    def language(self) -> str:
        return "rt" if self.path.suffix in SOURCES or self.of else "antt"

    @cached_property
    def code(self) -> str:
        """The code, with spaces for comments and texts."""
        return NO_CODE[self.language].sub(lambda m: re.sub(r"[^\n]", " ", m[0]), self.text)

    @cached_property
    def words(self) -> dict[str, list[int]]:
        found: dict[str, list[int]] = {}
        for it in WORD.finditer(self.code):
            found.setdefault(it[0], []).append(it.start())
        return found

    @cached_property
    def uses(self) -> list[tuple[int, int, str]]:
        """The use lines: from where to where, and the crate that the path begins with."""
        return sorted((start, end, root) for start, end, root, _ in self.imports)

    @cached_property
    def scope(self) -> dict[str, str]:
        """A name or a part of it that the file imports, to the crate that the path begins with; of a source in its code."""
        return self.imported(False)

    @cached_property
    def clause_scope(self) -> dict[str, str]:
        """The same in the clauses of a source."""
        return self.imported(True)

    def imported(self, in_clauses: bool) -> dict[str, str]:
        found = {}
        for start, _, root, names in self.imports:
            if self.language == "rt" and self.code.startswith("ghost", start) != in_clauses:
                continue
            for name in names:
                found[name] = root
                for part in WORD.findall(name):
                    found.setdefault(part, root)
        return found

    @cached_property
    def clauses(self) -> list[tuple[int, int]]:
        """Where the clauses of a source are."""
        return [(it.start(), closing(self.code, it.end() - 1)) for it in CLAUSE.finditer(self.code)] if self.language == "rt" else []

    def scope_at(self, at: int) -> dict[str, str]:
        return self.clause_scope if any(start <= at < end for start, end in self.clauses) else self.scope

    @cached_property
    def imports(self) -> list[tuple[int, int, str, list[str]]]:
        found = []
        if self.language == "rt":
            for it in RUST_USE.finditer(self.code):
                for path in names_of(it[1]):
                    words = [word.strip() for word in path]
                    if re.search(rf"\b{re.escape(words[-1])} as \w", it[1]):
                        words.append("_")
                    root = self.crate if words[0] in ("crate", "self", "super") or words[0] in self.own_modules else words[0]
                    found.append((it.start(), it.end(), root, words[-1:]))
                for renamed in re.findall(r"\bas (\w+)", it[1]):
                    found.append((it.start(), it.start(), self.crate, [renamed]))
        for it in (GHOST_USE if self.language == "rt" else ANTT_USE).finditer(self.code):
            path = it[1].split(".")
            root = path[1] if path[0] == "Rattle" and len(path) > 1 else "kit"
            if it[2] is None:
                names = [it[3] or path[-1]]
            else:
                given = [name.strip().split(" as ") for name in re.sub(r"\s+", " ", it[2]).split(",") if name.strip()]
                names = [name[0] for name in given if len(name) == 1]
                found.append((it.start(), it.start(), self.crate, [name[1] for name in given if len(name) > 1]))
            found.append((it.start(), it.end(), root, names))
        return found

    @cached_property
    def handed(self) -> dict[str, set[str]]:
        """The names that the file hands on, each to the crates that their paths begin with."""
        found: dict[str, set[str]] = {}
        for start, _, root, names in self.imports:
            if re.match(r"\s*(?:unfoldable )?pub ", self.code[start : start + 60]):
                for name in names:
                    for part in {name, *WORD.findall(name)}:
                        found.setdefault(part, set()).add(root)
        return found

    @cached_property
    def made(self) -> list[tuple[str, list[str]]]:
        """The names that the toolchain gives the blocks `impl TRAIT for TYPE` of the file, each with the words of which it is joined."""
        found = []
        for it in IMPL.finditer(self.code if self.language == "rt" else ""):
            trait, sign, of = re.sub(r"^\s*<[^>]*>", "", it[1]).partition(" for ")
            if sign:
                parts = WORD.findall(of.split(" where ")[0].split("<")[0])[-1:] + WORD.findall(re.sub(r"'\w+", "", trait).split("::")[-1])
                found.append(("".join(part[:1].upper() + part[1:] for part in parts), parts))
        return found

    @cached_property
    def own_modules(self) -> set[str]:
        return set(re.findall(r"\bmod (\w+)", self.code))

    @cached_property
    def declared(self) -> list[Declared]:
        return list(self.in_source() if self.language == "rt" else self.in_logic())

    def fields(self):
        """The fields of records that are written where they are used."""
        for it in RECORD.finditer(self.code):
            for one in FIELD.finditer(it[1]):
                yield Declared("field", one[1], it.start(1) + one.start(1), self.room == "specs")

    def in_source(self):
        code = self.code
        yield from self.fields()
        blocks = []
        for it in IMPL.finditer(code):
            head = re.sub(r"<[^<>]*>", "", re.sub(r"<[^<>]*>", "", re.sub(r"<[^<>]*>", "", it[1])))
            trait, _, rest = head.partition(" for ")
            names = WORD.findall((rest or trait).split(" where ")[0])
            blocks.append((it.end(), closing(code, it.end() - 1), names[0] if names else "", WORD.findall(trait)[-1] if rest else "", False))
        for it in re.finditer(r"(?:\bpub )?\btrait\s+(\w+)[^{;]*\{", code):
            blocks.append((it.end(), closing(code, it.end() - 1), it[1], "", it[0].startswith("pub")))
        for it in ITEM.finditer(code):
            kind, name = KINDS[it[1]], it[2]
            block = next((b for b in blocks if b[0] < it.start() < b[1]), None)
            line = code[code.rfind("\n", 0, it.start()) + 1 : it.start()]
            is_seen = "pub " in line or kind in ("module", "macro")
            if block and block[3]:
                # A method of an `impl` of a trait is the trait's.
                root = self.scope.get(block[3], self.crate)
                yield Declared("method of " + root, name, it.start(2), True, block[2])
            elif block:
                is_seen = "pub " in line or block[4]
                yield Declared("method" if kind == "function" else kind, name, it.start(2), is_seen, block[2])
            else:
                yield Declared(kind, name, it.start(2), is_seen)
        for it in BODY.finditer(code):
            start, end = it.end(), closing(code, it.end() - 1)
            yield from self.members(start, end, it[1] == "enum")
        for it in GHOST.finditer(code):
            yield Declared("field", it[1], it.start(1), True)
        for it in LABEL.finditer(code):
            yield Declared("label", it[1], it.start(1), True)
        yield Declared("module", self.path.stem, -1, True)

    def members(self, start: int, end: int, is_enum: bool):
        """The fields of a struct, or the variants of an enum and their fields."""
        code, depth, opens = self.code, 0, True
        for it in re.finditer(r"[{}()\[\]<>,]|->|#\[[^\]]*\]|\w+(?=\s*:(?!:))|\w+", code[start : end - 1]):
            sign, at = it[0], start + it.start()
            if sign.startswith("#") or sign == "->":
                continue
            if sign in "{([<":
                depth += 1
            elif sign in "})]>":
                depth -= 1
            elif sign == ",":
                opens = opens or depth == 0
            elif is_enum and depth == 0 and opens:
                yield Declared("variant", sign, at, True)
                opens = False
            elif re.match(r"\w+\s*:(?!:)", code[at:]) and sign not in ("pub", "ghost"):
                yield Declared("field", sign, at, True)

    def in_logic(self):
        code = self.code
        yield from self.fields()
        is_proof = self.room == "proofs"
        inside: list[tuple[int, int, str]] = []
        for it in DECLARED.finditer(code):
            indent, before, kind, name = len(it[1]), it[2], it[3], it[4]
            if name in LANGUAGE or name == "_" or not re.search(r"\w", name) or any(s <= it.start() < e for s, e, _ in inside):
                continue
            if indent and not (kind or "pub" in before or "abbrev" in before):
                continue
            if kind is None and not re.match(r"\s*:|\s*[({]|\s*$", code[it.end() :].split("\n")[0] or " :"):
                continue
            if kind is None and not re.match(r"[^=\n]*\s:\s|\s*:|\s*$|\s*\n\s+:", code[it.end() : it.end() + 400]):
                continue
            what = {"record": "type", "data": "type", "module": "module", "ruleset": "definition"}.get(kind or "", "definition")
            yield Declared(what, name, it.start(4), "pub" in before or (not is_proof and kind is not None))
            if kind in ("record", "data"):
                rest = re.compile(rf"\n(?! {{{indent + 1},}}|\n|\s*\n)").search(code, it.end())
                end = rest.start() if rest else len(code)
                inside.append((it.end(), end, kind))
                for one in INSIDE.finditer(code, it.end(), end):
                    yield Declared("field" if kind == "record" else "variant", one[1], one.start(1), True)
        yield Declared("module", self.path.stem, -1, True)

    @cached_property
    def units(self) -> list[int]:
        """Where each item begins: a function, a type, a definition with its equations."""
        if self.language == "rt":
            starts = [it.start() for it in re.finditer(r"^[ \t]*(?:pub(?:\([a-z]+\))? )?(?:const |unsafe |extern \"C\" |final )*(?:fn|struct|enum|trait|mod|use|ghost use|impl|type|static)\b", self.code, re.M)]
        else:
            starts, last = [], None
            for it in re.finditer(r"^(?:(?:abbrev|unfoldable|pub|record|data) )*([^\s(){}]+)", self.code, re.M):
                if it[1] != last or it[1] in ("use", "module", "mod"):
                    starts.append(it.start())
                last = it[1]
        return [0, *starts]

    def unit(self, at: int) -> int:
        return bisect.bisect_right(self.units, at)


def lists(top: Path) -> dict[str, list[str]]:
    """The crates, lowest first, and what each stands on."""
    found = {}
    for name in LISTS:
        for line in (top / name).read_text(encoding="utf-8").splitlines():
            if ":" in line and not line.startswith("#"):
                head, names = line.split(":")
                found[head.split()[0]] = names.replace("staticlib", "").split()
    return found


@dataclass
class Crates:
    """All crates of a tree, and the words in them."""

    top: Path = TOP
    below: dict[str, list[str]] = field(default_factory=dict)
    files: dict[str, list[File]] = field(default_factory=dict)

    def __post_init__(self):
        self.below = lists(self.top)
        self.under: dict[str, set[str]] = {}
        for crate, names in self.below.items():
            self.under[crate] = {crate}
            for name in names:
                self.under[crate] |= self.under.get(name, set())
        for crate in self.below:
            self.files[crate] = []
            for room in ("src", "specs", "proofs"):
                for path in sorted((self.top / "crates" / crate / room).rglob("*")):
                    if path.suffix in (*SOURCES, ".antt"):
                        self.files[crate].append(File(crate, path, path.read_text(encoding="utf-8"), room))
        self.index: dict[str, dict[str, list[tuple[File, Declared]]]] = {}
        for crate in self.below:
            self.read(crate)

    def read(self, crate: str):
        """Reads again what a crate declares."""
        for of in self.index.values():
            of.pop(crate, None)
        for file in self.files[crate]:
            for it in file.declared:
                self.index.setdefault(it.name, {}).setdefault(crate, []).append((file, it))

    def declaring(self, word: str, crate: str) -> list[tuple[File, Declared]]:
        """Where a crate declares a word, not counting methods of traits of others."""
        found = self.index.get(word, {}).get(crate, [])
        return [(file, it) for file, it in found if not it.kind.startswith("method of ") or it.kind == f"method of {crate}"]

    def home(self, root: str, word: str, passed: frozenset[str] = frozenset()) -> set[str]:
        """The crates of which one declares the word that a path from this crate leads to."""
        if root not in self.below:
            return {"kit"}
        if self.declaring(word, root):
            return {root}
        found = set()
        for file in self.files[root]:
            for other in file.handed.get(word, ()):
                if other not in passed and other != root:
                    found |= self.home(other, word, passed | {root})
        return found or {root}

    def owners(self, file: File, at: int, word: str) -> set[str]:
        """The crates of which one declares this word; `kit` is the toolchain."""
        crate, code = file.crate, file.code
        for start, end, root in file.uses:
            if start <= at < end:
                return self.home(self.root_of(file, at, root), word)
        scope = file.scope_at(at)
        before, after = code[max(0, at - 200) : at], code[at + len(word) : at + len(word) + 200]
        name = re.search(r"[^\s(){}.;,@\"]*\Z", before)[0] + word + re.match(r"[^\s(){}.;,@\"]*", after)[0]
        if file.language == "antt" and "goal." + name in code and re.search(r"(?:goal\.|^(?:abbrev |unfoldable |pub )*)[^\s(){}.;,@\"]*\Z", before, re.M):
            return self.in_body(file, word) or {crate}
        for found, it in self.index.get(word, {}).get(crate, []):
            if found is file and it.at == at:
                other = it.kind.removeprefix("method of ")
                return {crate} if other == it.kind else self.home(other, word)
        if before.endswith("::"):
            first = re.search(r"(\w+)(?:::<[^<>]*>)?::\Z", before)
            return self.through(scope, file.crate, first[1] if first else "", word)
        if inline := re.search(r"Rattle\.(\w+)\.[\w.'+-]*\Z", before):
            return self.home(inline[1], word)
        if path := re.search(r"([\w'-]+)\.[^\s(){}.;,@\"]*\Z", before):
            if path[1] in scope and (file.language == "antt" or path[1][0].isupper()):
                return self.home(scope[path[1]], word)
            if path[1] == "invariant":
                return {crate}
            if path[1] == "self" and any(found is file and it.kind in ("method", "field") for found, it in self.index.get(word, {}).get(crate, [])):
                return {crate}
            kinds = DOTTED if file.language == "antt" else {"method"} if after.startswith("(") else {"field", "variant"}
            return path[1] in ("c", "l") and self.in_body(file, word) or self.by_kind(file, word, kinds)
        if re.search(r"\.[^\s(){}.;,@\"]*\Z", before):
            return self.by_kind(file, word, DOTTED)
        if file.language == "antt" and name != word and "-" in name:
            if name in scope:
                return self.home(scope[name], word)
            if crate in self.index.get(name, {}):
                return {crate}
            return self.in_body(file, word) or self.by_kind(file, word, DOTTED | {"definition", "type"})
        if word in scope:
            return self.home(scope[word], word)
        if word in TACTICS and file.language == "antt" and crate not in self.index.get(word, {}):
            return {"kit"}
        if self.is_member(file, at, word):
            of = self.literal(file, at) if file.language == "rt" else None
            return {crate} if of == "" else self.through(scope, crate, of, word) if of else self.by_kind(file, word, {"field"})
        return {crate}

    @staticmethod
    def root_of(file: File, at: int, root: str) -> str:
        """The crate of the path in a use line that has several, at this place."""
        start = max(file.code.rfind(sign, 0, at) for sign in (",", "{", "use "))
        first = re.match(r"(?:use |[,{])\s*(\w+)::", file.code[start : at + 100])
        roots = {of for begin, end, of in file.uses if begin <= at < end}
        return first[1] if first and first[1] in roots else root

    def through(self, scope: dict[str, str], crate: str, name: str, word: str) -> set[str]:
        """Whose word it is behind `NAME::`."""
        if name in scope:
            return self.home(scope[name], word)
        return self.home(name if name in self.below else crate, word)

    @staticmethod
    def literal(file: File, at: int) -> str | None:
        """The type or its path's first word in whose literal or pattern the place of a source is; empty if it is in none."""
        depth = 0
        for place in range(at - 1, -1, -1):
            sign = file.code[place]
            if sign in ")]}":
                depth += 1
            elif sign in "([{":
                if depth == 0:
                    if sign != "{":
                        return ""
                    found = re.search(r"(?:(\w+)::)?(\w+)(?:::<[^<>]*>|<[^<>]*>)?\s*$", file.code[max(0, place - 120) : place])
                    name = found and (found[1] or found[2])
                    return name if name and (name[0].isupper() or found[1]) else None
                depth -= 1
        return None

    def in_body(self, file: File, word: str) -> set[str]:
        """Whose the word is in the function that a file of proofs is of; empty if it is of none."""
        parts = file.path.parts
        if file.room != "proofs" or "proofs" not in parts:
            return set()
        names = {part.strip("+").split("+")[0] for part in parts[parts.index("proofs") + 1 : -1]}
        found, is_known = set(), False
        for source in self.files[file.crate]:
            if source.room == "src":
                units = {source.unit(it.at) for it in source.declared if it.name in names and it.kind.split(" ")[0] in ("function", "method")}
                is_known = is_known or bool(units)
                for at in source.words.get(word, []) if units else []:
                    if source.unit(at) in units:
                        found |= self.owners(source, at, word)
        # What the function does not have, the toolchain made.
        return found or ({"kit"} if is_known else set())

    def by_kind(self, file: File, word: str, kinds: set[str]) -> set[str]:
        """Whose a field, a method, a variant or a label may be."""
        found = set()
        kinds = kinds - {"function", "label"} if file.language == "rt" else kinds
        for other in self.under[file.crate]:
            for source, it in self.declaring(word, other):
                is_trait = it.kind == "type" and source.language == "rt"
                if (other == file.crate or it.is_seen and self.is_owner_seen(other, it)) and (it.kind in kinds or it.kind.startswith("method of ") or is_trait):
                    found.add(other)
        if file.language == "rt":
            # A source calls methods of the crates that it names.
            named = found & {file.crate, *self.below[file.crate]}
            found = named or found
        is_local = file.language == "antt" and any(word in it.words for it in self.files[file.crate] if it.room == "src")
        if is_local and not (found - {file.crate}):
            found.add(file.crate)
        return found or {file.crate}

    def is_owner_seen(self, crate: str, method: Declared) -> bool:
        """Whether crates above see the type whose method it is."""
        types = [it for _, it in self.index.get(method.owner, {}).get(crate, []) if it.kind == "type"]
        return not types or any(it.is_seen for it in types)

    def is_member(self, file: File, at: int, word: str) -> bool:
        """Whether it names a field: in a literal or a pattern of a record."""
        after = file.code[at + len(word) :]
        if file.language == "antt":
            return re.match(r"\s*=\s", after) is not None and re.search(r"[{;,]\s*$", file.code[:at]) is not None
        return re.match(r"\s*(?:[,}]|:(?!:))", after) is not None and re.search(r"[{,]\s*(?:ref |mut )?$", file.code[:at]) is not None
