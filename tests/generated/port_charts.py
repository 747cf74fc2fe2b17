#!/usr/bin/env python3
"""Random policy tables of version 2: at each port each command lies in one line of `map`, which has the rules that are asked of it there;
`compare` shows where two tables decide differently, with a packet at a port at which they do; and `decide` names the rule that decides
on it by its line. What a table means, and how a chart is read, was written from docs/POLICIES.md and docs/COMMANDS.md alone."""
from __future__ import annotations

import re
import sys
from collections import Counter
from dataclasses import dataclass
from pathlib import Path
from random import Random

sys.dont_write_bytecode = True
sys.path.insert(0, str(Path(__file__).resolve().parent.parent))
from generator import main
from models.policies import CELLS, ENDS, port_table
from models.tables import Rule
from rmapctl import Differs, Room

# How many pairs of tables the gate makes, how many rules at most a table has, and how many points of charts are asked of each pair.
PAIRS, RULES, POINTS = 40, 9, 60

# The ports that rules name, and those of the points: of the last no rule asks.
NAMED, PORTS = [0, 1, 5, 31], [0, 1, 5, 31, 2]

# What the runs have to come to, and how often.
KINDS = {"points": 2_400, "points of lines with ports": 1_500, "points of else": 300, "witnesses": 200, "witnesses at another port than 0": 140,
         "rules that never match": 25, "pairs that are the same": 5}

MAPS = ["--maps", ",".join(map(str, CELLS))]

KEYS, EXTENDED = [0x00, 0x20, 0xFF, 0x31], [0x00, 0x20, 0xFF, 0x31]

# A quota, a verdict, and the line of the rule; the last has none of the three, where no rule decides.
Course = list[tuple[str, int, int]]


@dataclass(frozen=True)
class Asked:
    """A rule, the line in which it stands, and the port at which it is asked, if it names one."""
    line: int
    rule: Rule
    port: int | None


@dataclass(frozen=True)
class Point:
    """What a rule can know of a command, and the port at which it comes in."""
    port: int
    kind: str
    key: int
    initiator: int
    extended: int
    first: int
    last: int


def read(text: str) -> list[Asked]:
    """The rules of a table of version 2."""
    ranges: dict[str, list[str]] = {}
    asked = []
    for number, line in enumerate(text.split("\n"), 1):
        words = line.partition(";")[0].split()
        if not words or words[0] == ".version":
            continue
        if words[0] == ".range":
            ranges[words[1]] = words[2:4]
            continue
        words[4:5] = ranges.get(words[4], words[4:5])
        kind, key, initiator, extended, low, high, quota, verdict, *port = words
        fields = [None if it == "*" else int(it, 16) for it in (key, initiator, extended)]
        parts = None if quota == "-" else tuple(map(int, quota.split(":")))
        asked.append(Asked(number, Rule(kind, fields, int(low, 16), int(high, 16), parts, int(verdict)), int(port[1]) if port else None))
    return asked


def holds(own: Asked, it: Point) -> bool:
    """Whether a rule is asked of a command, and all but its quota matches."""
    rule = own.rule
    return (own.port in (None, it.port) and rule.kind in ("any", it.kind) and rule.low <= it.first and it.last <= rule.high
            and all(wanted in (None, byte) for wanted, byte in zip(rule.fields, (it.key, it.initiator, it.extended))))


def course_of(table: list[Asked], it: Point) -> Course:
    """The rules that are asked of a command, up to the first without quota."""
    course = []
    for own in table:
        if holds(own, it):
            quota = own.rule.quota
            course.append(("-" if quota is None else ":".join(map(str, quota)), own.rule.verdict, own.line))
            if quota is None:
                break
    return course


def decided(table: list[Asked], it: Point) -> tuple[int | None, int]:
    """The line of the rule that decides on the first command of all, if one does, and the verdict."""
    drawn: Counter[tuple[int, ...]] = Counter()
    for own in table:
        quota = own.rule.quota
        if holds(own, it):
            if quota is None or drawn[quota[:2]] < quota[2]:
                return own.line, own.rule.verdict
            drawn[quota[:2]] += 1
    return None, 10


def text_of(course: Course) -> str:
    """A course as `map` and `compare` print it."""
    parts = [f"verdict {verdict} rule {line}" if quota == "-" else f"{quota} verdict {verdict} rule {line}" for quota, verdict, line in course]
    if not course or course[-1][0] != "-":
        parts.append("verdict 10 no rule")
    return " else ".join(parts)


def is_in(word: str, value: int, base: int) -> bool:
    """Whether a word for a set has a value."""
    if word == "*":
        return True
    beside = word.startswith("!")
    return (value in [int(it, base) for it in word.removeprefix("!").split(",")]) != beside


def is_within(word: str, value: int) -> bool:
    low, high = word.split("-")
    return int(low, 16) <= value <= int(high, 16)


def has_addresses(word: str, it: Point) -> bool:
    """Whether a word for addresses has those of a command; `else` is asked apart."""
    if word == "*":
        return True
    first, slash, last = word.partition("/")
    return is_within(first, it.first) and (is_within(last or first, it.last) if last != "*" else slash == "/")


@dataclass(frozen=True)
class Line:
    """The words of a line of a chart."""
    kinds: str
    key: str
    initiator: str
    extended: str
    addresses: str
    ports: str

    @property
    def fields(self) -> list[str]:
        return [self.kinds, self.key, self.initiator, self.extended]

    def has_fields(self, it: Point) -> bool:
        return (self.kinds == "any" or it.kind in self.kinds.split(",")) and is_in(self.key, it.key, 16) \
            and is_in(self.initiator, it.initiator, 16) and is_in(self.extended, it.extended, 16) and is_in(self.ports, it.port, 10)


def line_of(words: list[str]) -> Line:
    """A line of a chart from its words; without `port` it is of all."""
    if len(words) == 7 and words[5] == "port":
        return Line(*words[:5], words[6])
    if len(words) != 5:
        raise Differs(f"no words of a line: {words}")
    return Line(*words, "*")


def lines_with(lines: list[Line], it: Point) -> list[int]:
    """The places of the lines that have a command at its port."""
    there = [place for place, line in enumerate(lines) if line.has_fields(it)]
    plain = [place for place in there if lines[place].addresses != "else" and has_addresses(lines[place].addresses, it)]
    rest = [place for place in there if lines[place].addresses == "else"
            and not any(lines[other].fields == lines[place].fields for other in plain)]
    return plain + rest


def point(random: Random, tables: list[list[Asked]]) -> Point:
    """A point at a command that may come, near the ends of ranges."""
    ends = [it for table in tables for own in table for it in (own.rule.low, own.rule.high)] + ENDS
    kind = random.choice(["read", "write", "rmw"])
    length = random.choice([1, 2, 4, 6, 8] if kind == "rmw" else [1, 2, 16, 17, 4096])
    first = min(max(0, random.choice(ends) + random.choice([-16, -1, 0, 0, 1, 1 - length])), 2**32 - length)
    return Point(random.choice(PORTS), kind, random.choice(KEYS), random.choice(KEYS), random.choice(EXTENDED), first, first + length - 1)


def check_map(random: Random, room: Room, name: str, table: list[Asked], seen: Counter[str]) -> None:
    """Each point lies in one line, with the course there; a rule that never matches is asked at none, or its limit is none."""
    lines, courses, never = [], [], []
    for text in room.printed("map", name, *MAPS).splitlines():
        words, colon, course = text.partition(" : ")
        if colon:
            lines.append(line_of(words.split()))
            courses.append(course)
        else:
            never.append(re.fullmatch(r"rule (\d+) never matches: .+", text))
    if len(set(lines)) != len(lines):
        raise Differs("map: a line twice")
    for _ in range(POINTS):
        it = point(random, [table])
        found = lines_with(lines, it)
        wanted = text_of(course_of(table, it))
        if len(found) != 1 or courses[found[0]] != wanted:
            raise Differs(f"map of {it}: {[(lines[at], courses[at]) for at in found]}, wanted {wanted}")
        seen["points"] += 1
        seen["points of lines with ports"] += lines[found[0]].ports != "*"
        seen["points of else"] += lines[found[0]].addresses == "else"
        line, _ = decided(table, it)
        if any(note is None or int(note[1]) == line for note in never):
            raise Differs(f"map: {never} of {it}, which rule {line} decides")
    if len({note[1] for note in never if note}) != len(never):
        raise Differs(f"map: a rule twice: {never}")
    seen["rules that never match"] += len(never)


def point_of(port: int, data: bytes) -> Point:
    """What a rule can know of a packet of `compare`: a command with increment."""
    kind = {0x4C: "read", 0x6C: "write", 0x5C: "rmw"}[data[2]]
    first, length = int.from_bytes(data[8:12], "big"), int.from_bytes(data[12:15], "big")
    return Point(port, kind, data[3], data[4], data[7], first, first + max(length, 1) - 1)


def check_packet(room: Room, names: list[str], tables: list[list[Asked]], line: str, it: Point) -> None:
    """`decide` names the rule that decides on a packet, of each table."""
    room.put("packet", line + "\n")
    for name, table in zip(names, tables):
        told = room.printed("decide", "packet", name, "--ports", "32", *MAPS).splitlines()
        line_number, verdict = decided(table, it)
        wanted = f"{it.port} {'no rule' if line_number is None else f'rule {line_number}'} verdict {verdict}"
        if told[0].partition(",")[0] != wanted:
            raise Differs(f"decide {line}: {told[0]}, wanted {wanted}")
        before = [own.line for own in table if verdict and (line_number is None or own.line < line_number)]
        if [re.match(r"    rule (\d+): ", it)[1] for it in told[1:]] != [str(it) for it in before]:
            raise Differs(f"decide {line}: {told}, wanted the rules {before}")


def check_compare(random: Random, room: Room, tables: list[list[Asked]], seen: Counter[str]) -> None:
    """Each line has a packet at which the tables decide as it says; no point lies in two; and where neither draws, each at which they
    decide differently lies in one, and no other in any."""
    done = room.job("compare", "old", "new", *MAPS)
    told = done.out.decode().splitlines()
    if done.status == 0:
        if told != ["same"]:
            raise Differs(f"compare: {told}")
        told = []
        seen["pairs that are the same"] += 1
    if len(told) % 4:
        raise Differs(f"compare: {len(told)} lines")
    lines, courses = [], []
    for place in range(0, len(told), 4):
        head, old, new, last = told[place:place + 4]
        lines.append(line_of(head.split()[1:]))
        courses.append([old.removeprefix("    old "), new.removeprefix("    new ")])
        packet = re.match(r"    (\d+) ([0-9A-F]+) EOP( unasked)?", last)
        if packet is None:
            raise Differs(f"compare: no packet: {last}")
        it = point_of(int(packet[1]), bytes.fromhex(packet[2]))
        if courses[-1] != [text_of(course_of(table, it)) for table in tables]:
            raise Differs(f"compare: {head}\nat {it}: {[text_of(course_of(table, it)) for table in tables]}")
        if [own[:2] for own in course_of(tables[0], it)] == [own[:2] for own in course_of(tables[1], it)]:
            raise Differs(f"compare: {head}\nat {it} the tables are alike")
        seen["witnesses"] += 1
        seen["witnesses at another port than 0"] += it.port != 0
        if packet[3] is None and random.randrange(4) == 0:
            check_packet(room, ["old", "new"], tables, f"{packet[1]} {packet[2]} EOP", it)
    for _ in range(POINTS):
        it = point(random, tables)
        found = lines_with(lines, it)
        both = [course_of(table, it) for table in tables]
        plain = all(quota == "-" for course in both for quota, _, _ in course)
        alike = [[own[:2] for own in course] for course in both]
        if len(found) > 1 or found and courses[found[0]] != [text_of(course) for course in both]:
            raise Differs(f"compare of {it}: {[(lines[at], courses[at]) for at in found]}, wanted {both}")
        verdicts = [course[-1][1] if course else 10 for course in both]
        if found and alike[0] == alike[1] or plain and bool(found) != (verdicts[0] != verdicts[1]):
            raise Differs(f"compare of {it}: {found}, {both}")


def changed(random: Random, text: str, others: list[str]) -> str:
    """A table that differs in up to four lines."""
    lines = text.split("\n")
    for _ in range(random.choice([0, 1, 2, 3, 4])):
        place = random.randrange(1, len(lines) // 2 + 2)
        lines.insert(place, random.choice(others))
    return "\n".join(lines)


def check(random: Random, room: Room, seen: Counter[str]) -> None:
    _, old = port_table(random, random.randrange(RULES), NAMED)
    _, more = port_table(random, 4, NAMED)
    others = [it for it in more.splitlines()[1:] if it.split(";")[0].split() and not it.split()[0].startswith(".") and "_" not in it
              and len(it.split(";")[0].split()[4]) == 8 and re.fullmatch("[0-9A-F]{8}", it.split()[4])] or ["any * * * 00000000 FFFFFFFF - 0 port 1"]
    new = changed(random, old, others)
    room.put("old", old)
    room.put("new", new)
    tables = [read(old), read(new)]
    check_map(random, room, "old", tables[0], seen)
    check_compare(random, room, tables, seen)


if __name__ == "__main__":
    main(__doc__, check, PAIRS, KINDS)
