"""The definitions of crates/*/specs, for tools/definitions and tools/statement."""
import pathlib
import re

TOP = pathlib.Path(__file__).resolve().parent.parent

# A definition at the start of a line, or further in, in a module with parameters, where a field of a record has no word
# before `pub` and none behind it.
DEFINITION = re.compile(
    r"(?:(?:abbrev|unfoldable) )?pub (?!mod\b|use\b)(?:(?:record|data) )?([^\s:({]+)"
    r"|\s+(?:(?:abbrev|unfoldable) pub|pub (?:record|data)) ([^\s:({]+)"
)


def crates():
    """The names of the crates, lowest first."""
    for line in (TOP / "crates.txt").read_text().splitlines():
        if line.strip() and not line.startswith("#"):
            yield line.split(":")[0].split()[0]


def files(crate):
    """The files of a crate's definitions, in the order in which Lib.antt names them, and then the others."""
    folder = TOP / "crates" / crate / "specs"
    library = folder / "Lib.antt"
    named = re.findall(r"^pub mod (\S+)", library.read_text(), re.MULTILINE) if library.exists() else []
    found = {str(path.relative_to(folder).with_suffix("")): path for path in sorted(folder.rglob("*.antt"))}
    found.pop("Lib", None)
    order = [name for name in named if name in found]
    return [found[name] for name in order + [name for name in found if name not in order]]


def sentence(comments):
    """What the lines of a comment say, as a cell of a table: one sentence without its full stop, or several."""
    text = " ".join(line[2:].strip() for line in comments).replace("|", "\\|")
    if ". " not in text:
        text = text.rstrip(".")
    return text if text[1:2] == "^" else text[:1].upper() + text[1:]


def read(path):
    """What the file is, and its public definitions, each with its sentence."""
    title, definitions, comments = None, [], []
    for line in path.read_text().splitlines():
        comment = line.strip()
        if comment.startswith("-- ----"):
            comments = []
        elif comment.startswith("--"):
            comments.append(comment)
        elif line.startswith("infix"):
            continue
        else:
            if title is None:
                title = sentence(comments)
                comments = []
            if found := DEFINITION.match(line):
                definitions.append((found[1] or found[2], sentence(comments)))
            comments = []
    return title, definitions
