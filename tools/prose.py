"""What the prose of a page, or of the comments of a crate, is made of: its sentences and cells, and how often it has what docs/WRITING.md
wants seldom."""
import re

# The most words of a sentence, of a page for users and of one for those who change the code, and of a cell of a table.
MOST_WORDS, MOST_WORDS_INSIDE, MOST_WORDS_OF_A_CELL = 25, 40, 60

# How a sentence begins that has its subject late, if it is more than the label of a paragraph.
LATE = re.compile(r"(?:Of|What)\b(?:\s+\S+){5}")

# The words that are counted, each by what it is looked for as.
WORDS = {
    "behind": r"\bbehind\b",
    "tell": r"\b(?:tell|tells|told|telling|untold)\b",
    "stand": r"\b(?:stand|stands|stood|standing)\b",
    "alone": r"\balone\b",
    "but for": r"\bbut for\b",
    "so many": r"\bso many\b",
    "where": r"\bwhere\b",
    "has to": r"\b(?:has|have|had) to\b",
}


# A line that has only a comment, or one that ends in a comment after its code, by the ending of its file in Rattle.
SLASHES, DASHES = (re.compile(rf'(?:^\s*|^[^"]*\s){sign}(?:\s(.*))?$') for sign in ("//[/!]?", "--"))
COMMENTS = {".rt": SLASHES, ".rattle": SLASHES, ".antt": DASHES}


def comments_of(ending, source):
    """The comments of a source in Rattle, as Markdown: each block of lines is a paragraph or more."""
    found = (COMMENTS[ending].match(line) for line in source.splitlines())
    return "\n".join((it[1] or "").strip() if it else "" for it in found) + "\n\n"


def of_markdown(page):
    """The paragraphs of a page in Markdown, without code, tables, headings and pictures."""
    page = re.sub(r"<!--.*?-->", "", page, flags=re.S)
    page = re.sub(r"^( *)```.*?^\1```[^\n]*$", "\n", page, flags=re.S | re.M)
    paragraphs, lines = [], []
    for line in page.splitlines() + [""]:
        is_code = line.startswith("    ") and not lines
        is_none = not line.strip() or line.lstrip().startswith(("|", "#", "!["))
        begins = re.match(r"\s*(?:[-*]|\d+\.)\s", line)
        if (is_none or is_code or begins) and lines:
            paragraphs.append(" ".join(lines))
            lines = []
        if not is_none and not is_code:
            lines.append(re.sub(r"^\s*(?:[-*]|\d+\.|>)\s+", "", line).strip())
    return paragraphs


def of_manual(page):
    """The paragraphs of a manual page, without what stands there to be typed."""
    page = re.sub(r"^\.nf$.*?^\.fi$", "", page, flags=re.S | re.M)
    paragraphs, lines = [], []
    for line in page.splitlines() + ["."]:
        if re.match(r"\.(?:B|I|BR|IR)\s", line):
            lines.append(line.split(" ", 1)[1])
        elif line.startswith("."):
            if lines:
                paragraphs.append(" ".join(lines))
            lines = []
        else:
            lines.append(line)
    return [re.sub(r"\\f.|\\-", "", it) for it in paragraphs]


def of_header(page):
    """The paragraphs of the comments of a header of C."""
    paragraphs = []
    for comment in re.findall(r"/\*+(.*?)\*/", page, re.S):
        text = re.sub(r"^\s*\* ?", "", comment, flags=re.M)
        paragraphs += [" ".join(it.split()) for it in re.split(r"\n\s*\n", text) if it.strip()]
    return paragraphs


def paragraphs_of(name, page):
    """The paragraphs of a page of that name, with what is code in them as one word."""
    kind = of_manual if name.endswith(".1") else of_header if name.endswith(".h") else of_markdown
    for paragraph in kind(page):
        paragraph = re.sub(r"!?\[([^]]*)\]\([^)]*\)", r"\1", paragraph)
        yield re.sub(r"`[^`]*`", "CODE", paragraph).replace("*", "")


def sentences_of(name, page):
    """The sentences of a page of that name."""
    for paragraph in paragraphs_of(name, page):
        for sentence in re.split(r"(?<=[.!?:])\s+(?=[A-Z(\[])", paragraph):
            if sentence.strip():
                yield sentence.strip()


def cells_of(name, page):
    """The cells of the tables of a page of that name, with what is code in them as one word."""
    if not name.endswith(".md"):
        return
    page = re.sub(r"^( *)```.*?^\1```[^\n]*$", "\n", re.sub(r"<!--.*?-->", "", page, flags=re.S), flags=re.S | re.M)
    for line in re.findall(r"^ *\|(.*)\|\s*$", page, re.M):
        line = re.sub(r"!?\[([^]]*)\]\([^)]*\)", r"\1", re.sub(r"`[^`]*`", "CODE", line)).replace("*", "")
        yield from (cell.strip() for cell in re.split(r"(?<!\\)\|", line) if re.search(r"\w", cell))


def counts_of(name, page, most=MOST_WORDS):
    """How many sentences of a page have more than that many words, or cells more than theirs; how many sentences have their subject
    late; and how often it has each word that is counted."""
    sentences, cells = [*sentences_of(name, page)], [*cells_of(name, page)]
    are_long = [len(it.split()) > most for it in sentences] + [len(it.split()) > MOST_WORDS_OF_A_CELL for it in cells]
    counts = {"long": sum(are_long), "late": sum(bool(LATE.match(it)) for it in sentences)}
    for word, form in WORDS.items():
        counts[word] = sum(len(re.findall(form, it, re.I)) for it in sentences + cells)
    return counts
