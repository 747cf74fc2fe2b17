#!/usr/bin/env python3
"""Random policy tables of version 2 with random comments: `map --markdown` and `compare --markdown` have a row for each line that they
print without it, with the same words, and `map` the comments of the rules. How a row is read was written from the rules of GitHub
Flavored Markdown, and not from the program."""
from __future__ import annotations

import re
import sys
from collections import Counter
from itertools import zip_longest
from pathlib import Path
from random import Random

sys.dont_write_bytecode = True
sys.path.insert(0, str(Path(__file__).resolve().parent.parent))
from generator import main, same_lines
from models.policies import CELLS, port_table
from rmapctl import Differs, Room

# How many pairs of tables the gate makes, and how many rules at most a table has.
PAIRS, RULES = 50, 9

# What the runs have to come to, and how often.
KINDS = {"rows of maps": 800, "rows of comparisons": 90, "comments": 110, "rows with more than one rule": 100,
         "rules that never match": 25, "pairs that are the same": 1}

NAMED = [0, 1, 5, 31]
MAPS = ["--maps", ",".join(map(str, CELLS))]

# The columns of a map and of a comparison.
WORDS = ["Kind", "Key", "Initiator", "Extended", "Addresses", "Port"]
MAP = [*WORDS, "Asks", "Verdict", "Rule", "Comment"]
COMPARISON = ["Sign", *WORDS, *(f"{table} {it}" for table in ("Old", "New") for it in ("asks", "verdict", "rule")), "Packet"]

# What comments are made of.
PARTS = ["|", "\\", "\\|", "*", "**", "_", "`", "~~", "[", "](", "<b>", "&lt;", " ", "  ", ";", "-", "else", "a", "frames", "é", "≥", "\t", "\r", "\x01"]


def comment(random: Random) -> str:
    """A comment, or none."""
    return random.choice(["", ";", "; " + "".join(random.choices(PARTS, k=random.randrange(9)))])


def cells(row: str) -> list[str]:
    """The cells of a row: what is between bars, of which none has an odd number of backslashes before it."""
    found, cell, escaped = [], "", False
    for c in row:
        if c == "|" and not escaped:
            found.append(cell)
            cell = ""
        else:
            cell += c
        escaped = c == "\\" and not escaped
    if found[0] or cell:
        raise Differs(f"a row that begins or ends with no bar: {row}")
    return [it.strip(" ") for it in found[1:]]


def read(cell: str) -> str:
    """The text of a cell: a backslash before a sign is none of it, and no other sign has a meaning."""
    if re.search(r"(?<!\\)(?:\\\\)*[|`*_~\[<&]", cell):
        raise Differs(f"a sign with a meaning: {cell}")
    return re.sub(r"\\([!-/:-@\[-`{-~])", r"\1", cell)


def rows_of(text: str, columns: list[str]) -> tuple[list[dict[str, str]], list[str]]:
    """The rows of a table with these columns, and the paragraphs after it."""
    head, bars, *lines = text.split("\n")
    if cells(head) != columns or cells(bars) != ["---"] * len(columns):
        raise Differs(f"the head of a table: {head}")
    end = next(place for place, line in enumerate(lines) if not line)
    rows = [cells(line) for line in lines[:end]]
    if any(len(row) != len(columns) for row in rows):
        raise Differs(f"rows with other cells than {columns}")
    paragraphs = "\n".join(lines[end:]).split("\n\n")
    return [dict(zip(columns, row)) for row in rows], [it.strip("\n") for it in paragraphs if it.strip("\n")]


def words_of(row: dict[str, str]) -> str:
    """The words of a row, as a line has them."""
    *words, ports = (row[it] for it in WORDS)
    return " ".join(words) + ("" if ports == "*" else f" port {ports}")


def course_of(row: dict[str, str], table: str = "") -> str:
    """The course of a row, as a line has it."""
    names = [f"{table} {it}" for it in ("asks", "verdict", "rule")] if table else ["Asks", "Verdict", "Rule"]
    parts = zip_longest(*(row[it].split(" else ") for it in names))
    return " else ".join(("" if asks == "-" else f"{asks} ") + f"verdict {verdict} " + ("no rule" if rule == "-" else f"rule {rule}")
                         for asks, verdict, rule in parts)


def said(line: str) -> str:
    """The comment of a line of a table, as a cell has it: a tab stays one."""
    return re.sub(r"[\0-\x08\x0a-\x1f]", " ", line.partition(";")[2].strip() or "-")


def spaced(text: str) -> str:
    """A text as a reader sees it, who does not see how many spaces are side by side."""
    return re.sub(" +", " ", text).strip()


def check_map(room: Room, name: str, lines: list[str], seen: Counter[str]) -> None:
    """Each line is a row, with the comments of its rules, and each rule that never matches a paragraph."""
    wanted = room.printed("map", name, *MAPS).splitlines()
    rows, paragraphs = rows_of(room.printed("map", name, *MAPS, "--markdown"), MAP)
    same_lines("map", [f"{words_of(row)} : {course_of(row)}" for row in rows] + paragraphs, wanted)
    for row in rows:
        rules = row["Rule"].split(" else ")
        comments = ["-" if rule == "-" else said(lines[int(rule) - 1]) for rule in rules]
        if spaced(read(row["Comment"])) != spaced(" else ".join(comments)):
            raise Differs(f"the comment {row['Comment']}, wanted {comments}")
        seen["comments"] += any(it != "-" for it in comments)
        seen["rows with more than one rule"] += len(rules) > 1
    seen["rows of maps"] += len(rows)
    seen["rules that never match"] += len(paragraphs)


def check_compare(room: Room, seen: Counter[str]) -> None:
    """Each difference is a row."""
    plain, done = (room.job("compare", "old", "new", *MAPS, *form) for form in ([], ["--markdown"]))
    if plain.status != done.status:
        raise Differs(f"compare: status {done.status}, wanted {plain.status}")
    if done.status == 0:
        same_lines("compare", done.out.decode(), ["same"])
        seen["pairs that are the same"] += 1
        return
    rows, paragraphs = rows_of(done.out.decode(), COMPARISON)
    told = [line for row in rows for line in (
        f"{row['Sign']} {words_of(row)}", f"    old {course_of(row, 'Old')}", f"    new {course_of(row, 'New')}", f"    {row['Packet']}")]
    same_lines("compare", told + paragraphs, plain.out.decode().splitlines())
    seen["rows of comparisons"] += len(rows)


def commented(random: Random, text: str) -> list[str]:
    """The lines of a table, with other comments."""
    return [line.partition(";")[0] + comment(random) for line in text.split("\n")]


def check(random: Random, room: Room, seen: Counter[str]) -> None:
    _, text = port_table(random, random.randrange(RULES), NAMED)
    old = commented(random, text)
    new = [line for line in old if line.startswith(".") or line.strip().startswith(".") or random.randrange(6)]
    room.put("old", "\n".join(old))
    room.put("new", "\n".join(new))
    check_map(room, "old", old, seen)
    check_compare(room, seen)


if __name__ == "__main__":
    main(__doc__, check, PAIRS, KINDS)
