"""The public functions of the libraries, as their source files have them. Read by tools/uncalled, tools/heads, tools/unsaid and tools/pages."""
import collections
import pathlib
import re

TOP = pathlib.Path(__file__).resolve().parent.parent
OTHER = ("test_", "bench_")

# The lists of crates: those that are proved, and those of tests.
LISTS = ("crates.txt", "tests.txt")
SUFFIXES = (".rt", ".rattle")

Function = collections.namedtuple("Function", "crate owner name path start end is_law")

STRINGS = re.compile(r'r?b?"(?:\\[\s\S]|[^"\\])*"|b?\'(?:\\.|[^\'\\\n])\'')
COMMENTS = re.compile(r"//[^\n]*")
CLAUSE = re.compile(r"\b(?:requires|ensures|decreases)\*?(?: [\w']+)? *\{|\bghost [\w']+ *[=:] *\{|\bwhere +\{")
USES = re.compile(r"^[ \t]*(ghost )?(pub(?:\([a-z]+\))? )?use ([^;]+);", re.M)
ENUM = re.compile(r"^[ \t]*pub enum\b[^{;]*\{", re.M)
LAW = "/// A law and no work"
HEAD = re.compile(r"^[ \t]*(pub )?(?:const |unsafe |final |extern \"C\" )*fn (\w+)", re.M)
IMPL = re.compile(r"^(?:unsafe )?(?:impl|pub trait|trait)\b([^{;]*)\{", re.M)


def blank(text, start, end):
    """The text with spaces from start to end; lines stay."""
    return text[:start] + re.sub(r"[^\n]", " ", text[start:end]) + text[end:]


def closing(text, at):
    """The place past the bracket that closes the one at this place."""
    depth = 0
    for place in range(at, len(text)):
        depth += {"{": 1, "}": -1}.get(text[place], 0)
        if depth == 0:
            return place + 1
    return len(text)


def code_of(text):
    """The code of a file: no comments, no strings, no clauses."""
    for pattern in (STRINGS, COMMENTS):
        text = pattern.sub(lambda m: re.sub(r"[^\n]", " ", m[0]), text)
    while (found := CLAUSE.search(text)) is not None:
        text = blank(text, found.start(), closing(text, found.end() - 1))
    return text


class File:
    """A source file: its code, and what it uses."""

    def __init__(self, crate, path):
        self.crate, self.path = crate, path
        self.text = path.read_text(encoding="utf-8")
        code = code_of(self.text)
        found = [m for m in USES.finditer(code) if not m[1]]
        self.uses = [path for m in found for path in names_of(m[3])]
        self.shows = [path for m in found if m[2] and m[2].strip() == "pub" for path in names_of(m[3])]
        self.code = USES.sub(lambda m: re.sub(r"[^\n]", " ", m[0]), code)
        self.words = set(re.findall(r"\w+", self.code))

    def owners(self):
        """Where each block of methods stands, and of which type or trait it is."""
        for found in IMPL.finditer(self.code):
            head = re.sub(r"<[^<>]*>", "", re.sub(r"<[^<>]*>", "", found[1]))
            is_of_trait = re.search(r"\bfor\b", head) is not None
            name = re.findall(r"\w+", head.split(" for ")[-1].split(":")[0].split(" where ")[0])
            yield found.end(), closing(self.code, found.end() - 1), name[0] if name else "", is_of_trait

    def functions(self):
        """The public functions, free ones and methods of a type's own."""
        blocks = list(self.owners())
        for found in HEAD.finditer(self.code):
            owner = next((name for start, end, name, _ in blocks if start <= found.start() < end), None)
            if not found[1]:
                continue
            body = self.code.find("{", found.end())
            end = closing(self.code, body)
            is_law = not self.code[body + 1 : end - 1].strip() or LAW in self.comment(found.start())
            yield Function(self.crate, owner, found[2], self.path, found.start(), end, is_law)

    def payloads(self):
        """The words in the cases of its public enums."""
        bodies = [self.code[m.end() - 1 : closing(self.code, m.end() - 1)] for m in ENUM.finditer(self.code)]
        return {word for body in bodies for word in re.findall(r"\w+", body)}

    def comment(self, at):
        """The comment above an item."""
        lines = []
        for line in reversed(self.text[:at].splitlines()):
            if not line.strip().startswith(("///", "#[")):
                break
            lines.append(line)
        return "\n".join(reversed(lines))


def names_of(tree):
    """The paths of a use tree, each a list of words."""
    tree = re.sub(r"\s+", " ", tree).strip()
    if "{" not in tree:
        return [re.split(r" as ", tree)[0].split("::")]
    front, rest = tree.split("{", 1)
    parts, depth, part = [], 0, ""
    for char in rest[: rest.rindex("}")]:
        depth += {"{": 1, "}": -1}.get(char, 0)
        if char == "," and depth == 0:
            parts.append(part)
            part = ""
        else:
            part += char
    words = [word for word in front.split("::") if word.strip()]
    return [words + path for it in [*parts, part] if it.strip() for path in names_of(it)]


class Tree:
    """All crates of a tree, and what each has."""

    def __init__(self, top=TOP):
        self.below, self.statics = {}, set()
        lines = [line for name in LISTS if (top / name).exists() for line in (top / name).read_text().splitlines()]
        for line in lines:
            if ":" in line and not line.startswith("#"):
                head, names = line.split(":")
                self.below[head.split()[0]] = names.split()
                if "staticlib" in head:
                    self.statics.add(head.split()[0])
        self.files = {
            crate: [File(crate, path) for path in sorted((top / "crates" / crate / "src").rglob("*")) if path.suffix in SUFFIXES]
            for crate in self.below
        }
        self.product = [crate for crate in self.below if not crate.startswith(OTHER)]
        self.libraries = [
            crate
            for crate in self.product
            if crate not in self.statics and (top / "crates" / crate / "src/lib.rt").exists()
        ]

    def stands_on(self, crate):
        """The crate and all that it stands on."""
        seen, todo = set(), [crate]
        while todo:
            it = todo.pop()
            if it in self.below and it not in seen:
                seen.add(it)
                todo += self.below[it]
        return seen

    def shown(self, crate):
        """What a library shows: its public modules, names of its own, and names that it hands on."""
        lib = next(it for it in self.files[crate] if it.path.name == "lib.rt")
        own = set(re.findall(r"\bmod (\w+)", lib.code))
        handed = [path for path in lib.shows if path[0] in self.below and path[0] not in own]
        names = {path[-1] for path in lib.shows if path not in handed}
        return set(re.findall(r"\bpub mod (\w+)", lib.code)), names, handed

    def public(self, crate):
        """The public functions of a library."""
        modules, own, _ = self.shown(crate)
        for file in self.files[crate]:
            for function in file.functions():
                name = function.owner or function.name
                if name in own or file.path.stem in modules or file.path.parent.name in modules:
                    yield function
