"""What the clauses of calls reach of the definitions in crates/*/specs, for tools/statement."""
import collections
import re
import sys

import specs

# A word: what stands between spaces and brackets. The empty list is one.
WORD = re.compile(r"\[\]|[^\s(){}\[\];,|]+|[(){}\[\];,|]")
USE = re.compile(r"(?:unfoldable )?(?:pub )?use ([^\s{;]+?)(?:\.\{([^}]*)\})?(?: as (\S+?))?;?$")
SIGNATURE = re.compile(r"(?:(?:unfoldable|abbrev) )*(?:pub )?(?:(?:unfoldable|abbrev) )*(data |record )?([^\s:({]+)")

# Words of the language itself.
LANGUAGE = set(
    "→ : = | × ↦ ⊥ ¬ λ Type tt Unit absurd abbrev unfoldable unfolding pub data record where let in elim as open use mod"
    " module _ ? refl subst ap sym omega arith grind search rw simp assumption cc hlevel first_of with".split()
)
# Constructors of the kit, which begin no variable of a pattern.
CONSTRUCTORS = {"true", "false", "pos", "negsuc", "zero", "suc", "∷", "[]", "tt"}

Definition = collections.namedtuple("Definition", "crate path name public")
Type = collections.namedtuple("Type", "crate path name doc")
Constant = collections.namedtuple("Constant", "crate path name value doc")


# The comment and the attributes above an item.
COMMENT = r"((?:^[ \t]*(?:///|#\[).*\n)*)"


def comments_of(text):
    """The comment above an item, without its attributes."""
    return [line.strip() for line in text.splitlines() if line.strip().startswith("///")]


class Unresolved(Exception):
    """A word that nothing in its file explains."""


def parts(name):
    """The words by which a name is written: ◌∷◌ by ∷, if◌then◌else◌ by three."""
    return [part for part in name.split("◌") if part] if "◌" in name and name != "◌" else [name]


def items(text):
    """The names of a list in a use line, each with its name here."""
    for item in re.sub(r"\s+", " ", text).split(","):
        words = item.split()
        if words:
            yield words[0], words[2] if len(words) == 3 else words[0]


# A module whose `where` stands in a line of its own, and its items two columns further right.
LONG_MODULE = re.compile(r"^(module _ .*)\n  where\n((?:    .*\n|\n)*)", re.M)


def in_one_line(found):
    """The module as one whose parameters fit one line."""
    return found[1] + " where\n" + re.sub(r"^  ", "", found[2], flags=re.M)


class File:
    """A file of specs/: what it names by its use lines, and its definitions as pieces with their own variables."""

    def __init__(self, crate, path):
        self.crate, self.path = crate, path
        self.scope = {}       # a word, to where it is from: (module, name)
        self.modules = {}     # a short name, to a module
        self.passed_on = {}   # a name, to where it is from
        self.bodies = {}      # a name, to its pieces
        self.public = {}      # a name, to whether it is public
        self.of_data = {}     # a constructor, to its data
        for outer, text in self.blocks():
            self.read(outer, text)

    def blocks(self):
        """Each item of the file with the parameters of the module in which it stands."""
        outer, inside, block = "", "", []
        for line in LONG_MODULE.sub(in_one_line, self.path.read_text()).splitlines() + ["end"]:
            line = re.sub(r"(^|\s)--(\s.*|$)", "", re.sub(r'"(\\.|[^"\\])*"', '[]', line)).rstrip()
            if not line:
                continue
            if line.startswith("module "):
                opened, line = line[len("module _"):].rsplit("where", 1)[0], None
            elif outer and line.startswith("  "):
                opened, line = outer, line[2:]
            else:
                opened = ""
            if line is not None and (line.startswith(" ") or line.startswith("}")):
                block.append(line)
                continue
            if block:
                yield inside, "\n".join(block)
            outer = opened
            inside, block = opened, [line] if line is not None else []

    def read(self, outer, text):
        first = text.split(None, 1)[0]
        if re.match(r"(unfoldable )?(pub )?use ", text):
            return self.read_use(text)
        if re.match(r"(pub )?mod |infix|unfolding ", text):
            return None
        if re.match(r"(?:(?:unfoldable|abbrev|pub) )+", text) or first in ("data", "record") or self.declares(text):
            found = SIGNATURE.match(text)
            self.current = found[2]
            self.bodies[self.current] = []
            self.public[self.current] = bool(re.match(r"(?:(?:unfoldable|abbrev) )?pub ", text))
            if found[1] == "data ":
                for line in text.splitlines()[1:]:
                    if made := re.match(r"\s+(?:pub )?(\S+) :", line):
                        self.of_data[made[1]] = self.current
        self.bodies[self.current].append((outer, text))
        return None

    @staticmethod
    def declares(text):
        """Whether the item is a signature: a name, and a colon behind it."""
        return len(text.split()) > 1 and text.split()[1] == ":"

    def read_use(self, text):
        text = re.sub(r"\s+", " ", text)
        module, names, short = USE.match(text).groups()
        if names is None:
            self.modules[short or module.rsplit(".", 1)[-1]] = module
            return
        for name, here in items(names):
            for part in parts(here):
                self.scope[part] = (module, name)
            if text.startswith(("pub ", "unfoldable pub ")):
                self.passed_on[here] = (module, name)


class Variables:
    """Which words of a piece are its own: parameters, variables of patterns and of λ, and names of fields."""

    def __init__(self, file, outer, text):
        self.words = set()
        self.file = file
        words = WORD.findall(text)
        self.bind_groups(WORD.findall(outer))
        self.bind_groups(words)
        self.bind_marked(words)
        if re.match(r"(?:(?:abbrev|unfoldable) )?(?:pub )?(data|record) ", text):
            self.words.update(re.findall(r"^\s+(?:pub )?(\S+) :", text, re.MULTILINE))
        else:
            self.bind_pattern(words[: self.equals(words)])

    @staticmethod
    def equals(words):
        """The place of the sign that ends a pattern."""
        depth = 0
        for place, word in enumerate(words):
            depth += (word in "({[") - (word in ")}]") if len(word) == 1 else 0
            if word == "=" and depth == 0:
                return place
        return 0

    def bind_groups(self, words):
        """The names in (a b : A) and {a : A}."""
        for place, word in enumerate(words):
            if word in ("(", "{"):
                names = []
                for name in words[place + 1:]:
                    if name == ":" and names:
                        self.words.update(names)
                    if name in "(){}[];,|:=→":
                        break
                    names.append(name)

    def bind_marked(self, words):
        """The names between λ and its dot, behind `let`, and before ↦."""
        binding = False
        for place, word in enumerate(words):
            if word == "λ" or word == "let":
                binding = True
            elif binding and word in ("=", ":"):
                binding = False
            elif binding and word not in "(){}":
                self.words.add(word.rstrip("."))
                binding = not word.endswith(".")
            if word == "↦":
                start = max(n for n, w in enumerate(words[:place]) if w in ("[", "|"))
                self.bind_pattern(words[start:place])

    def bind_pattern(self, words):
        for word in words[1:]:
            if not self.is_constructor(word):
                self.words.add(word)

    def is_constructor(self, word):
        first = word.split(".")[0]
        if word in CONSTRUCTORS or word in self.file.of_data or (first != word and first in self.file.modules):
            return True
        if word in self.file.scope:
            module, name = self.file.scope[word]
            return "TheVariants" in module or name[:1].isupper() or not name[:1].isalpha()
        return False


class Tree:
    """All definitions of the repository, and what each names."""

    def __init__(self):
        self.crates = list(specs.crates())
        self.unresolved = []
        self.files = {}
        for crate in self.crates:
            folder = specs.TOP / "crates" / crate / "specs"
            for path in sorted(folder.rglob("*.antt")):
                module = ".".join(path.relative_to(folder).with_suffix("").parts)
                self.files[crate, module] = File(crate, path)
        self.sources = {crate: Source(crate) for crate in self.crates}
        self.stands_on = dict(self.lines_of_crates())

    @staticmethod
    def lines_of_crates():
        for line in (specs.TOP / "crates.txt").read_text().splitlines():
            if line.strip() and not line.startswith("#"):
                name, _, below = line.partition(":")
                yield name.split()[0], below.split()

    def find(self, module, name):
        """What `name` is in a module: a definition, a type, or None where it is the kit's."""
        path = module.split(".")
        if path[0] != "Rattle" or path[1] not in self.crates:
            return None
        crate, inner = path[1], path[3:]
        if inner[:1] == ["declared"] or inner[:1] == ["contracts"]:
            names = [part for part in inner[1:] if part not in ("TheVariants", "TheConstants")]
            if "TheConstants" in inner:
                return self.sources[crate].constants.get((names[0], name))
            return self.find_type(crate, names[-1] if names[-1][:1].isupper() else name, name)
        file = self.files.get((crate, ".".join(inner)))
        if file is None:
            # A constructor, by the name of its data.
            outer, data = self.files.get((crate, ".".join(inner[:-1]))), inner[-1]
            if outer is None or data not in outer.bodies:
                raise Unresolved
            return Definition(crate, outer.path, data, outer.public[data])
        if name in file.passed_on:
            return self.find(*file.passed_on[name])
        name = file.of_data.get(name, name)
        if name not in file.bodies:
            raise Unresolved
        return Definition(crate, file.path, name, file.public[name])

    def find_type(self, crate, *names):
        """A type that the code declares; the constants of a module belong to none."""
        for name in names:
            if name in self.sources[crate].types:
                return self.sources[crate].types[name]
        if all(name.upper() == name or name == "TheConstants" for name in names[-1:]):
            return None
        raise Unresolved

    def names(self, node):
        """What a definition or a type names."""
        return list(dict.fromkeys(self.all_names(node)))

    def all_names(self, node):
        if isinstance(node, Constant):
            return
        if isinstance(node, Type):
            yield from self.sources[node.crate].reached(self, node)
            return
        module = ".".join(node.path.relative_to(specs.TOP / "crates" / node.crate / "specs").with_suffix("").parts)
        file = self.files[node.crate, module]
        for outer, text in file.bodies[node.name]:
            own = Variables(file, outer, text).words
            for word in self.words(outer + " " + text):
                yield from self.resolved(file, own, word)

    @staticmethod
    def words(text):
        """The words of a piece but those of the language, numbers, fields behind a dot, and labels before `=`."""
        found = WORD.findall(text)
        inside = 0
        for word, following in zip(found, found[1:] + [""]):
            inside += (word == "{") - (word == "}")
            if word in "(){}[];,|" or word in LANGUAGE or word[0] == "." or re.fullmatch(r"[0-9][0-9A-Fa-fx_.]*", word):
                continue
            if word.endswith(".") or (inside and following == "="):
                continue
            yield word

    def resolved(self, file, own, word):
        first, _, rest = word.partition(".")
        if word in own or first in own:
            return
        try:
            for place, name in ((word, None), (first, rest)):
                if place in file.scope:
                    yield from filter(None, [self.find(*file.scope[place])])
                    return
                if place in file.modules and name:
                    yield from filter(None, [self.find(file.modules[place], name)])
                    return
                bare = next((own for own in file.bodies if place in (own, *parts(own))), file.of_data.get(place))
                if bare:
                    yield Definition(file.crate, file.path, bare, file.public[bare])
                    return
        except Unresolved:
            pass
        else:
            if re.fullmatch(r"\W+", word) and not word.strip("→:=|×⊥"):
                return
        self.unresolved.append(f"unresolved: {word} in {file.path.relative_to(specs.TOP)}")

    def reach(self, calls):
        """What the clauses of these calls reach, each with whence it is reached first: call by call, so that each adds what
        those before it do not reach."""
        whence = {}
        for call in calls:
            crate, *path = call.split("::")
            nodes = self.sources[crate].clause_names(self, path)
            queue = collections.deque()
            for node in nodes:
                if node not in whence:
                    whence[node] = call
                    queue.append(node)
            while queue:
                node = queue.popleft()
                for next_node in self.names(node):
                    if next_node not in whence:
                        whence[next_node] = node
                        queue.append(next_node)
        return whence


class Source:
    """The sources of a crate: its types, and the clauses of its calls."""

    def __init__(self, crate):
        self.crate = crate
        self.texts = {path: path.read_text() for path in sorted((specs.TOP / "crates" / crate / "src").rglob("*.rt"))}
        self.types, self.constants = {}, {}
        for path, text in self.texts.items():
            for found in re.finditer(COMMENT + r"^[ \t]*(?:pub )?const (\w+): [^=]+ = ([^;]+);", text, re.MULTILINE):
                value = found[3] if len(found[3]) <= 40 and "\n" not in found[3] else ".."
                self.constants[path.stem, found[2]] = Constant(crate, path, found[2], value, self.first_sentence(found[1]))
            for found in re.finditer(COMMENT + r"^(?:pub(?:\([a-z]+\))? )?(?:struct|enum|trait) (\w+)", text, re.MULTILINE):
                self.types[found[2]] = Type(crate, path, found[2], self.first_sentence(found[1]))

    @staticmethod
    def first_sentence(comment):
        text = " ".join(line.strip()[3:].strip() for line in comment.splitlines() if line.strip().startswith("///"))
        return re.split(r"\.(?:\s|$)", text)[0].replace("|", "\\|")

    def ghost_scope(self, path):
        """The words of specs that a file of the code may write in its clauses."""
        scope = {}
        text = self.texts[path]
        for found in re.finditer(r"ghost use ([^\s{;]+?)(?:\.\{([^}]*)\})?(?: as (\w+))?;", text):
            for name, here in items(found[2] or ""):
                for part in parts(here):
                    scope[part] = (found[1], name)
        return scope

    def in_braces(self, text, start):
        """The text from an opening brace to the one that closes it."""
        depth = 0
        for place in range(start, len(text)):
            depth += (text[place] == "{") - (text[place] == "}")
            if depth == 0:
                return text[start + 1:place]
        return text[start + 1:]

    def head(self, path):
        """The file of a call, and its text there: its comment, and its signature with its clauses."""
        for file, text in self.texts.items():
            for found in re.finditer(rf"{COMMENT}^([ \t]*)(?:pub(?:\([a-z]+\))? )?(?:const |unsafe |extern .C. )*fn {path[-1]}\b", text, re.MULTILINE):
                owner = re.findall(r"^(?:impl|pub trait)\b.*", text[: found.start()], re.MULTILINE)[-1:] if found[2] else []
                if (len(path) == 2) != bool(owner) or (owner and path[0] not in re.findall(r"\w+", owner[0])):
                    continue
                start = found.start(2)
                end = re.search(rf"^{found[2]}\{{(?:\}})?$|;$", text[start:], re.MULTILINE)
                return file, comments_of(found[1]), text[start:start + end.start()]
        sys.exit(f"no such call: {self.crate}::{'::'.join(path)}")

    def clauses(self, path):
        """The file of a call, and the texts of its clauses."""
        file, _, head = self.head(path)
        head = re.sub(r"^\s*//.*$", "", head, flags=re.MULTILINE)
        starts = re.finditer(r"^\s*(?:requires|ensures)\b[^{]*\{", head, re.MULTILINE)
        return file, [self.in_braces(head, start.end() - 1) for start in starts]

    def declaration(self, node):
        """A type as the code declares it, with its comments; of one that has a model, what it is seen as."""
        text = self.texts[node.path]
        found = re.search(rf"{COMMENT}^(?:pub(?:\([a-z]+\))? )?(?:struct|enum|trait) {node.name}\b[^;{{(]*([;{{(])", text, re.MULTILINE)
        lines = comments_of(found[1])
        model = re.search(rf"^impl\b.*\bModel for {node.name}\b.*?ghost Value = (\{{)", text, re.MULTILINE | re.DOTALL)
        if model and f"\n}}\n" not in model[0]:
            kind = re.match(r"(?:pub(?:\([a-z]+\))? )?(\w+)", text[found.end(1):])[1]
            return "\n".join([*lines, f"{kind} {node.name}, seen as {self.in_braces(text, model.end() - 1).strip()}"])
        end = found.end()
        if found[2] == "{":
            end = found.start(2) + len(self.in_braces(text, found.start(2))) + 2
        elif found[2] == "(":
            end = text.index(";", end) + 1
        shown = re.sub(r"^[ \t]*#\[.*\n", "", text[found.end(1):end], flags=re.MULTILINE)
        return "\n".join([*lines, shown])

    def clause_names(self, tree, path):
        file, clauses = self.clauses(path)
        scope = self.ghost_scope(file)
        found = []
        for clause in clauses:
            for word in tree.words(clause):
                if word in scope or word.split(".")[0] in scope:
                    found.append(self.named(tree, scope[word if word in scope else word.split(".")[0]], file, word))
        return list(dict.fromkeys(filter(None, found)))

    def named(self, tree, place, file, word):
        try:
            return tree.find(*place)
        except Unresolved:
            tree.unresolved.append(f"unresolved: {word} in {file.relative_to(specs.TOP)}")
            return None

    def reached(self, tree, node):
        """What a type is made of: the words of its value, or the types of its fields."""
        text = self.texts[node.path]
        model = re.search(rf"^impl\b.*\bModel for {node.name}\b.*?^}}", text, re.MULTILINE | re.DOTALL)
        value = re.search(r"ghost Value = (\{)", model[0]) if model else None
        if value:
            scope = self.ghost_scope(node.path)
            for word in tree.words(self.in_braces(model[0], value.start(1))):
                if word in scope:
                    yield from filter(None, [self.named(tree, scope[word], node.path, word)])
            return
        body = re.search(rf"^(?:pub(?:\([a-z]+\))? )?(?:struct|enum) {node.name}\b[^;{{(]*([;{{(])", text, re.MULTILINE)
        if body and body[1] == "{":
            inner = re.sub(r"//.*|#\[.*", "", self.in_braces(text, body.start(1)))
            for word in dict.fromkeys(re.findall(r"\b[A-Z]\w*", inner)):
                yield from filter(None, [self.type_named(tree, node.path, word)])

    def type_named(self, tree, path, word):
        """The type of that name, if a use line or the file itself says that it is one of the repository."""
        text = self.texts[path]
        for crate in [self.crate] + [name for name in tree.stands_on[self.crate] if name in tree.crates]:
            module = "crate" if crate == self.crate else crate
            uses = re.findall(rf"^(?:pub )?use {module}::([^;]*);", text, re.MULTILINE)
            own = crate == self.crate and self.types.get(word, None) and self.types[word].path == path
            if own or any(re.search(rf"\b{word}\b", use) for use in uses):
                return self.find_passed_on(tree, crate, word)
        return None

    @staticmethod
    def find_passed_on(tree, crate, word):
        if word in tree.sources[crate].types:
            return tree.sources[crate].types[word]
        for below in tree.stands_on[crate]:
            if below in tree.crates and word in tree.sources[below].types:
                return tree.sources[below].types[word]
        return None
