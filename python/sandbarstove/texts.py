"""TOML as `rmapctl` reads it: version 1.1 of the language, with its limits. `tomllib` is of version 1.0."""
from __future__ import annotations

import re
from typing import Any, Iterator

# How deep values may nest, and how many parts a key may have; and the integers that there are.
_MOST_NESTED, _LEAST, _GREATEST = 80, -1 << 63, (1 << 63) - 1

_TOKEN = re.compile(r'''
    (?P<string> """ (?: \\. | [^\\] )*? "{3,5} | \'\'\' .*? '{3,5} | " (?: \\. | [^"\\\n] )* " | ' [^'\n]* ' )
  | (?P<comment> \# [^\n]* )
  | (?P<time> (?<! [\w:] ) (?: \d{4}-\d\d-\d\d [Tt\ ] )? \d\d:\d\d (?! [\d:] ) )
  | (?P<word> [\w+-]+ )
  | (?P<other> . )''', re.S | re.X)
_ESCAPE = re.compile(r"\\(?:(e)|x([0-9A-Fa-f]{2})|.)", re.S)
_CONTROL = re.compile("[\0-\x08\x0a-\x1f\x7f]")


class NoToml(Exception):
    """A text that is no TOML."""


def _escape(found: re.Match[str]) -> str:
    """An escape as version 1.0 has it."""
    return "\\u001B" if found[1] else "\\u00" + found[2] if found[2] else found[0]


def _parts(text: str) -> Iterator[str]:
    """The parts of a text, in version 1.0: inline tables are on one line and end in no comma, times have seconds."""
    nested: list[str] = []
    dots, before, held = 0, "", ""
    for found in _TOKEN.finditer(text):
        kind, part = found.lastgroup, found[0]
        if kind == "string" and part[0] == '"':
            part = _ESCAPE.sub(_escape, part)
        elif kind == "time":
            part += ":00"
        elif "{" in nested and (part == "\n" or kind == "comment" and not _CONTROL.search(part)):
            part = " "
        if kind == "other" and part in "[{":
            nested.append(part)
        if kind == "other" and part in "]}" and nested:
            nested.pop()
        dots = dots + (part == ".") if kind in ("string", "word") or part in ". \t" else 0
        if len(nested) > _MOST_NESTED or dots >= _MOST_NESTED:
            raise NoToml("cannot recurse further; max recursion depth met")
        if held and part not in " \t":
            # (a comma of an inline table is held until it is known whether it is the last)
            yield held if part != "}" else " "
            held = ""
        if part == "," and nested[-1:] == ["{"] and before != "{":
            held, part = ",", ""
        if part not in (" ", "\t", ""):
            before = part
        yield part
    yield held


def _refuse_large(value: Any) -> None:
    """Refuses integers that 64 bits do not hold."""
    left = [value]
    while left:
        value = left.pop()
        if isinstance(value, dict):
            left.extend(value.values())
        elif isinstance(value, list):
            left.extend(value)
        elif isinstance(value, int) and not _LEAST <= value <= _GREATEST:
            raise NoToml(f"integer number overflowed: {value:#x}")


def table_of(text: str) -> dict[str, Any]:
    """The table that a text says. If it is no TOML, this raises NoToml; without `tomllib`, ImportError."""
    import tomllib
    try:
        table = tomllib.loads("".join(_parts(text.removeprefix("\ufeff").replace("\r\n", "\n"))))
    except ValueError as error:
        raise NoToml(str(error)) from None
    _refuse_large(table)
    return table
