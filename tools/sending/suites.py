"""A suite: its index, what came of each packet, and the report."""
from __future__ import annotations

import argparse
import hashlib
import os
import subprocess
import time
from collections import Counter
from dataclasses import dataclass
from typing import NamedTuple, Optional

from sending.commands import command_of, reply_of
from sending.lines import Packet, text_of
from sending.telling import Stop


# The lines of docs/PROTOCOL.md, *The order of checks*, by the rows that are named by them.
CHECKS = {
    "short": "1: fewer bytes than the header has: discarded, Short",
    "protocol": "1: the protocol identifier is not 01: discarded, Protocol",
    "reply-type": "1: the packet type is 00: discarded, Reply",
    "header-crc": "1: the header CRC is wrong: discarded, HeaderCrc",
    "reserved-type": "2: reserved packet type: status 2",
    "unused-code": "2: unused command code: status 2",
    "target-address": "3: a target logical address other than the node's: status 12",
    "rmw-length": "4: a read-modify-write whose length is not 0, 2, 4, 6 or 8: status 11",
    "verify-buffer": "5: verify bit with more than 1,024 bytes: status 9",
    "length": "6: more than 4,096 bytes: status 10",
    "place": "6: the place is not allowed: status 10",
    "program": "7: the verdict of the program is not yes: status 3, 12 or 10",
    "eep": "8: EEP: status 7",
    "early-eop": "8: EOP with fewer bytes after the header than are wanted: status 5",
    "too-much-data": "8: EOP with more: status 6",
    "data-crc": "9: the data CRC is wrong: status 4",
    "boot-window": "10: a control write whose load is refused has status 1; 11: else the command is carried out: status 0",
}
CARRIED_OUT = "11: the command is carried out: status 0"


class Item(NamedTuple):
    row: str
    text: str


def check_of(row: str) -> str:
    """The line of the order of checks of a row; a row of the program has its verdict after its name."""
    first = row.split("+")[0]
    return CHECKS["program"] if first.startswith("program") else CHECKS.get(first, CARRIED_OUT)


def read_index(name: str, packets: int) -> tuple[list[Item], list[str]]:
    """The row of each packet, and what was not found."""
    items, missing = [], []
    for number, text in enumerate(text_of(name), 1):
        place, _, rest = text.partition(" ")
        row, _, words = rest.partition(" ")
        if place == "-":
            missing.append(f"{row}: {words}")
        elif place == str(len(items) + 1) and row:
            items.append(Item(row, words))
        else:
            raise Stop(f"{name}, line {number}: no line of rmapctl suite --index")
    if len(items) != packets:
        raise Stop(f"{name} has {len(items)} packets, and {packets} are sent")
    return items, missing


@dataclass
class Outcome:
    """What came of a packet."""
    item: Item
    packet: Packet
    due: str
    came: Optional[str] = None
    is_sent: bool = False
    choice: Optional[str] = None
    late: Optional[str] = None
    extra: Optional[str] = None

    @property
    def kind(self) -> str:
        if self.extra:
            return "different"
        if self.due == (self.came or "-"):
            return "right"
        if self.choice:
            return "open"
        if self.late:
            return "late"
        return "none" if self.came is None else "different"


def words_of_lines(lines: list[str]) -> list[str]:
    """What `rmapctl show` says of each of these packet lines; nothing if there is no such program."""
    program = os.environ.get("RMAPCTL", "rmapctl")
    try:
        done = subprocess.run([program, "show", "-"], input="".join(f"{line}\n" for line in lines), capture_output=True, text=True)
    except OSError:
        return []
    shown = done.stdout.splitlines()
    return shown if len(shown) == len(lines) else []


def advice_of(status: int) -> str:
    program = os.environ.get("RMAPCTL", "rmapctl")
    try:
        done = subprocess.run([program, "explain", f"status{status}"], capture_output=True, text=True)
    except OSError:
        return ""
    return done.stdout.strip() if done.returncode == 0 else ""


def digest(name: str) -> str:
    try:
        with open(name, "rb") as file:
            return hashlib.sha256(file.read()).hexdigest()
    except OSError:
        return "not read"


KINDS = ("right", "different", "late", "none", "open")


def table_of(outcomes: list[Outcome]) -> list[str]:
    rows: dict[str, Counter[str]] = {}
    for outcome in outcomes:
        rows.setdefault(outcome.item.row, Counter())[outcome.kind] += 1
    total = sum(rows.values(), Counter())
    lines = ["| Row | Tried | Right | Different | Late | None | Open |", "|---|---|---|---|---|---|---|"]
    for row, counts in [*rows.items(), ("all", total)]:
        lines.append(f"| {row} | {sum(counts.values())} | " + " | ".join(str(counts[kind]) for kind in KINDS) + " |")
    return lines


def difference_of(number: int, outcome: Outcome) -> list[str]:
    """The part of a report on one difference."""
    packet = outcome.packet
    came = outcome.extra or outcome.came or outcome.late
    sent = "".join(data.hex().upper() for data, _ in packet.frames)
    texts = {"packet": f"{packet.port} {sent} {packet.frames[-1][1]}".replace("  ", " "), "due": f"{packet.port} {outcome.due}",
             "once more" if outcome.extra else "late" if outcome.kind == "late" else "came": f"{packet.port} {came or '-'}"}
    shown = dict(zip((name for name, text in texts.items() if not text.endswith("-")),
                     words_of_lines([text for text in texts.values() if not text.endswith("-")])))
    lines = [f"### Packet {number}: {outcome.item.row}", "", outcome.item.text, "", f"Line {check_of(outcome.item.row)}", ""]
    for name, text in texts.items():
        lines += [f"- {name}: `{text[:400]}`"] + ([f"  {shown[name]}"] if name in shown else [])
    command = command_of(packet.data())
    right = reply_of(outcome.due, command) if command else None
    advice = advice_of(right.status) if right else ""
    return lines + ([""] + [f"    {text}" for text in advice.splitlines()] if advice else []) + [""]


def report_of(place: tuple[str, int], given: argparse.Namespace, outcomes: list[Outcome], missing: list[str], kept: list[str]) -> str:
    lines = ["# Run of a suite", "", f"- date: {time.strftime('%Y-%m-%d %H:%M:%SZ', time.gmtime())}", f"- target: {place[0]}:{place[1]}"]
    for what, name in (("node's file", given.node), ("lines", given.lines), ("replies", given.compare), ("index", given.index),
                       ("choices", given.profile)):
        lines += [f"- {what}: {name}, SHA-256 {digest(name)}"] if name else []
    lines += ["", *table_of(outcomes), ""]
    lines += ["## Not tried", "", *(f"- {text}" for text in missing), ""] if missing else []
    lines += ["## Memory that was not put back", "", *(f"- {text}" for text in kept), ""] if kept else []
    choices = Counter(outcome.choice for outcome in outcomes if outcome.kind == "open")
    lines += ["## Open by the choices", "", *(f"- {name}: {count}" for name, count in choices.items()), ""] if choices else []
    wrong = [(number, outcome) for number, outcome in enumerate(outcomes, 1) if outcome.kind not in ("right", "open")]
    lines += ["## Differences", ""] + ([] if wrong else ["None.", ""])
    for number, outcome in wrong:
        lines += difference_of(number, outcome)
    return "\n".join(lines)
