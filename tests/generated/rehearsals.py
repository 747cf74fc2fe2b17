#!/usr/bin/env python3
"""Random policies and who loads: `rehearse` prints what a node at which they judge answers to the packets of the loads, and with `--any`
whose loads pass, as `map` and `policy` do; `packet load` says if the same load is denied after it. The node, the tables and the packets
were written from docs/PROTOCOL.md and docs/POLICIES.md alone, and what `policy` says of a table from docs/COMMANDS.md."""
from __future__ import annotations

import sys
from collections import Counter
from dataclasses import replace
from pathlib import Path
from random import Random
from typing import NamedTuple

sys.dont_write_bytecode = True
sys.path.insert(0, str(Path(__file__).resolve().parent.parent))
from generator import main, same_lines
from models.images import assembled, parsed
from models.loads import PART, PLAIN, Loader, Node, Policy, askers, lets_load, load_of, open_to
from models.tables import PortRule, Rule
from rmapctl import Done, Room

# How many pairs of policies the gate makes; by hand 2,000 were.
PAIRS = 60

# The maps of the nodes.
MAPS = [(1, False), (3, False)]
LIST = ["--maps", "1,3"]

# What the runs have to come to, and how often.
KINDS = {"NEW lets OLD be loaded": 10, "NEW locks loads out": 5, "NEW is locked out": 5, "NEW is loaded in part": 3,
         "loads by somebody": 10, "loads by nobody": 10, "images": 5, "images of two parts": 5, "until quotas are spent": 5,
         "only after quotas are spent": 1, "denied again": 5}

# Keys and initiators, of who loads and of rules; and ends of ranges, round the staging and the load register.
KEYS, INITIATORS = [0x00, 0x20], [0x67, 0x00, 0x20]
ENDS = [0, 0x1000, 0x3FFF, 0x4000, 0x10000, 0x10003, 0x10007, 0xFFFFFFFF]

# Lets everybody load.
OPEN = Rule("any", [None, None, 0xFF], 0, 0xFFFFFFFF, None, 0)
OPEN_POLICY = Policy(assembled([".budget 2", "mov r0, 0", "exit"]), None)

# Bytes of the size of the smallest image, and with what a line of its loads begins.
SMALLEST, LEAD = bytes(32), "    loads"

# What mends a table that lets nobody load, and what is said of a load after which the same is denied.
MENDS = "    as its first rule this line lets initiator 67 load: any * 67 FF 00000000 FFFFFFFF - 0"
DENIED = ["    after this load the same load is denied", "    --final says that it is meant, and then nothing is said"]

WORDS = {0: "success", 1: "general error", 3: "invalid key", 10: "not implemented or not authorised",
         12: "invalid target logical address"}


def rule(random: Random) -> Rule:
    """A rule, which mostly is of commands to the boot window."""
    fields = [random.choice([None, *of]) for of in ([None, *KEYS], [None, *INITIATORS], [0xFF, 0xFF, 0])]
    low, high = sorted(random.choices(ENDS, k=2)) if random.randrange(3) == 0 else (0, 0xFFFFFFFF)
    index = random.randrange(2)
    quota = (index, random.randrange(MAPS[index][0]), random.choice([0, 1, 3, 5, 6, 9])) if random.randrange(3) == 0 else None
    return Rule(random.choice(["read", "write", "any", "any", "any"]), fields, low, high, quota, random.choice([0, 0, 0, 3, 10, 12]))


def table(random: Random, room: Room, name: str) -> Policy:
    """A table of either version; one of version 2 has ports, and ranges by name."""
    rules = [rule(random) for _ in range(random.randrange(1, 5))] + [OPEN] * (random.randrange(3) == 0)
    if random.randrange(2):
        made = [PortRule(it, None, None) for it in rules]
        room.put(name, "".join(it.text() for it in rules))
    else:
        ports = [random.choice([None, None, 0, 1, 31]) for _ in rules]
        made = [PortRule(it, port, random.choice([None, f"range{number}"])) for number, (it, port) in enumerate(zip(rules, ports))]
        ranges = [f".range {own.name} {own.rule.low:08X} {own.rule.high:08X}\n" for own in made if own.name]
        room.put(name, ".version 2\n; loads\n" + "".join(ranges) + "".join(own.text(" ; a rule") for own in made))
    room.printed("policy", name, "image", *LIST)
    return Policy(parsed(room.content("image") or b""), made)


def sized(random: Random, room: Room, name: str) -> Policy:
    """The image of a program that lets everything pass, of the smallest size or of two parts."""
    slots = random.choice([2, 511])
    image = assembled([f".budget {slots}", *["mov r0, 0"] * (slots - 1), "exit"])
    room.put(name, image.spelled())
    return Policy(image, None)


def program(random: Random, room: Room, name: str) -> Policy:
    """The image of a program that lets some ports load, and of these one initiator alone or all."""
    ports = random.sample(range(32), random.randrange(4))
    of_one = ["ldxb r4, [r2+0]", f"jne r4, {random.choice(INITIATORS)}, no"] if random.randrange(2) else []
    lines = ["mov r0, 0", *of_one, *(f"jeq r3, {port}, yes" for port in ports), "no:", "mov r0, 10", "yes:", "exit"]
    image = assembled([f".budget {len(lines) - 2}", *lines])
    room.put(name, image.spelled())
    return Policy(image, None)


class Ending(NamedTuple):
    """How loads ended: whether the image is loaded into each slot, whether a verdict refused a write, and whether one failed."""
    loaded: list[bool]
    is_refused: bool
    is_failed: bool

    @property
    def is_whole(self) -> bool:
        return all(self.loaded) and not self.is_refused and not self.is_failed


def told(node: Node, name: str, image: bytes, slots: list[int], loader: Loader) -> tuple[list[str], Ending]:
    """The lines of the loads of an image, and how they ended."""
    lines, before, is_refused, is_failed, transaction = [name], node.published, False, False, 0
    for slot in slots:
        packets = load_of(image, slot, loader, transaction)
        transaction += len(packets)
        for what, packet in zip(["write of the image"] * (len(packets) - 2) + ["load", "read of the load result"], packets):
            status = node.status_of(loader.port, packet)
            if what != "read of the load result":
                is_refused |= node.verdict != 0
                is_failed |= status != 0
            lines.append(f"    {what}: status {status} {WORDS[status]}")
            if packet is packets[-1] and status == 0:
                lines[-1] += result_of(node.results[loader.port])
    loaded = [node.is_loaded(slot, image, before) for slot in slots]
    return lines, Ending(loaded, is_refused, is_failed)


def result_of(data: bytes) -> str:
    """A load result in words."""
    generation = int.from_bytes(data[4:], "big")
    if generation:
        return f", generation {generation}"
    return f", load fault {data[0]} slot {int.from_bytes(data[2:4], 'big')}" if data[0] else ", nothing was loaded"


def rehearsed(old: Policy, new: Policy, slots: list[int], loader: Loader, ports: int) -> tuple[list[str], str, int]:
    """The lines of a rehearsal, the last of them, and the status."""
    node = Node([old, new], MAPS, ports)
    lines, there = told(node, "NEW", new.image.spelled(), slots, loader)
    if not there.is_whole:
        part = "NEW is loaded in part" if any(there.loaded) else "NEW is locked out"
        return lines, part if there.is_refused else "NEW is not loaded", 1
    more, back = told(node, "OLD", old.image.spelled(), slots, loader)
    if back.is_whole:
        return lines + more, "NEW lets OLD be loaded", 0
    return lines + more, "NEW locks loads out" if back.is_refused else "OLD is not loaded", 1


def denied_again(new: Policy, loader: Loader) -> bool:
    """Whether the load of a policy into slot 3 of a node is denied after that load: at one with 32 ports, and with the first maps
    on which its image is accepted."""
    asked = [own.rule.quota[0] for own in new.rules or [] if own.rule.quota]
    node = Node([OPEN_POLICY, new], [(32, False)] * 8 if 1 in asked else [(256, False)] if asked else [], 32)
    packets = load_of(new.image.spelled(), 3, loader)
    for packet in packets:
        node.status_of(loader.port, packet)
    refused = False
    for packet in packets:
        node.status_of(loader.port, packet)
        refused |= packet is not packets[-1] and node.verdict != 0
    return refused


def done_lines(done: Done) -> str:
    """What a job printed, and its status."""
    return (done.out + done.err).decode() + f"status {done.status}\n"


def told_lines(done: Done) -> list[str]:
    """What a job printed on standard error."""
    return done.err.decode().splitlines()


def missed(own: PortRule, ports: int) -> str | None:
    """Why a rule matches no command of the node of `check`, if it does not."""
    extended, low, high = own.rule.fields[2], own.rule.low, own.rule.high
    places = {0x00: [(0xA000_0000, 0xA000_FFFF)], 0xFF: [(0, 0x3FFF), (0x1_0000, 0x1_0007)]}
    has_byte = any(low <= last and first <= high for place, of in places.items() if extended in (None, place) for first, last in of)
    if own.port is not None and own.port >= ports:
        return f"it has no port {own.port}"
    if has_byte:
        return None
    return {None: "it", 0x00: "its bank 00", 0xFF: "its boot window"}[extended] + " has no byte of the range"


def odd_lines(room: Room, rules: list[PortRule], ports: int) -> list[str]:
    """What is said on standard error of the rules that match no command of the node of `check`."""
    lines = (room.content("new") or b"").decode().splitlines()
    first = len(lines) - len(rules) + 1
    told = [(number, missed(own, ports)) for number, own in enumerate(rules, first)]
    return [f"    rule {number} matches no command of this node: {why}" for number, why in told if why]


def able(policy: Policy, ports: int) -> set[Loader]:
    """Who loads the smallest image, on cells that nobody asked or on such that are past every quota, at ports that rules name and one more."""
    named = {own.port for own in policy.rules or []}
    others = [port for port in range(ports) if port not in named]
    asked = [Loader(port, initiator, key) for port in range(ports) if port in {*named, *others[:1]}
             for (initiator, _), (key, _) in askers(policy)]
    return {it for it in asked if any(lets_load(policy, MAPS, SMALLEST, it, is_spent) for is_spent in (False, True))}


def short_lines(room: Room, new: Policy, ports: int) -> list[str]:
    """What is said of rules without whose quota, which has a ticket, somebody loads the smallest image who cannot with it."""
    rules = new.rules or []
    lines = (room.content("new") or b"").decode().splitlines(keepends=True)
    first, with_it, told = len(lines) - len(rules), None, []
    for number, own in enumerate(rules, first):
        if own.rule.quota and own.rule.quota[2] > 0:
            freed = replace(own, rule=replace(own.rule, quota=None))
            text = freed.text("") if first else freed.rule.text()
            room.put("freed", "".join([*lines[:number], text, *lines[number + 1:]]))
            room.printed("policy", "freed", "image", *LIST, "--quiet")
            without = Policy(parsed(room.content("image") or b""), [*rules[:number - first], freed, *rules[number - first + 1:]])
            with_it = able(new, ports) if with_it is None else with_it
            if able(without, ports) - with_it:
                told.append(f"    rule {number + 1} has a quota that lets no whole load pass")
    return told


def of_table(room: Room, new: Policy, ports: int, node: list[str]) -> None:
    """`map` and `policy` print whose loads a table lets pass: of the smallest image, and of its own if these are others. They also print
    what is odd in it."""
    own = new.image.spelled()
    plain = list(open_to(new, MAPS, SMALLEST, ports, LEAD)) or [LEAD + " by nobody"]
    same = list(open_to(new, MAPS, own, ports, LEAD)) or [LEAD + " by nobody"]
    lead = f"    loads of {len(own)} bytes"
    both = plain + [line.replace(LEAD, lead, 1) for line in same] * (same != plain)
    drawn = room.job("map", "new", *node)
    odd = odd_lines(room, new.rules or [], ports) if "--node" in node else []
    short = short_lines(room, new, ports)
    same_lines("map", told_lines(drawn), both + short + odd)
    odd = ["    " + line for line in drawn.out.decode().splitlines() if " never matches: " in line] + odd
    wanted = both if (plain == [LEAD + " by nobody"]) != (same == [LEAD + " by nobody"]) else []
    if plain == same == [LEAD + " by nobody"]:
        wanted = ["    in slot 3 this table lets nobody load another", MENDS, "    --final says that it is meant, and then nothing is said"]
    same_lines("policy", told_lines(room.job("policy", "new", "made", *node)), wanted + short + odd)
    same_lines("policy --final", told_lines(room.job("policy", "new", "made", "--final", *node)), odd)
    same_lines("policy --quiet", told_lines(room.job("policy", "new", "made", "--quiet", *node)), [])


def check(random: Random, room: Room, seen: Counter[str]) -> None:
    old = table(random, room, "old") if random.randrange(3) else sized(random, room, "old")
    new = table(random, room, "new") if random.randrange(6) else program(random, room, "new")
    seen["images"] += new.rules is None
    seen["images of two parts"] += len(old.image.spelled()) > PART
    slots = random.choice([[3], [0], [3, 0], [2, 3, 1], [0, 1, 2, 3]])
    words = ["rehearse", "old", "new", *LIST, "--slot", ",".join(map(str, slots))]
    loader = Loader(random.choice([0, 1, 31]), random.choice(INITIATORS), random.choice(KEYS))
    named = ["--port", str(loader.port), "--initiator", f"{loader.initiator:02X}", "--key", f"{loader.key:02X}"]
    for it, given, ports in [(PLAIN, [], 1), (loader, named, 32)]:
        lines, last, status = rehearsed(old, new, slots, it, ports)
        seen[last] += 1
        who = f" (port {it.port} initiator {it.initiator:02X} key {it.key:02X})"
        same_lines(" ".join([*words, *given]), done_lines(room.job(*words, *given)), [*lines, last + who, f"status {status}"])
    ports = random.choice([1, 2, 5, 32])
    room.put("node.toml", f"ports = {ports}\n" + "".join(f"[[map]]\ncells = {count}\n" for count, _ in MAPS))
    for given, count in [(LIST, 32), (["--node", "node.toml"], ports)]:
        wanted = list(open_to(new, MAPS, old.image.spelled(), count))
        seen["loads by somebody" if wanted else "loads by nobody"] += 1
        seen["until quotas are spent"] += any("until" in line for line in wanted)
        seen["only after quotas are spent"] += any("only" in line for line in wanted)
        same_lines(" ".join(["rehearse --any", *given]), done_lines(room.job("rehearse", "old", "new", *given, "--any")),
                   [*(wanted or ["loads by nobody"]), f"status {int(not wanted)}"])
        if new.rules is not None:
            of_table(room, new, count, given)
    room.put("new.img", new.image.spelled())
    denied = denied_again(new, loader)
    seen["denied again"] += denied
    same_lines("packet load", told_lines(room.job("packet", "load", "new.img", "--slot", "3", *named)), DENIED * denied)


main(__doc__, check, PAIRS, KINDS)
