#!/usr/bin/env python3
"""Random packets: what `sim` and `trace` print of them is what `judge` prints, and each run that `trace` prints ends as its reply has it."""
import re
import sys
from collections import Counter
from pathlib import Path
from random import Random

sys.dont_write_bytecode = True
sys.path.insert(0, str(Path(__file__).resolve().parent.parent))
from generator import main, same_lines
from packets import crc, header
from rmapctl import Differs, Room

# How many files of packets the gate makes, and how many packets each has.
FILES, PACKETS = 40, 75

# A program that lets the first thirty commands pass.
QUOTA = ".budget 8\nldmap r1, 0\nmov r2, 0\ncall 2\njlt r0, 30, +2\nmov r0, 10\nexit\nmov r0, 0\nexit\n"

# A program that lets one initiator pass, with one key.
ONE_INITIATOR = """\
.budget 10
ldxb r3, [r1+3]
jne r3, 0x20, bad_key
ldxb r3, [r2+0]
jne r3, 0x67, deny
mov r0, 0
exit
bad_key:
mov r0, 3
exit
deny:
mov r0, 10
exit
"""

# A program of version 2 that lets no command pass whose transaction identifier is below one that was shown before.
RISING = """\
.version 2
.budget 11
ldxh r6, [r2+1]
be16 r6
ldmap r1, 0
mov r2, 0
mov r3, r6
call 3
jne r0, r6, deny
mov r0, 0
exit
deny:
mov r0, 10
exit
"""

# A program whose verdict is four times the last two bits of the transaction identifier, by a loop: 0, 4, 8 or 12.
LOOPING = """\
.budget 17
.loop head, back, 4, r6
ldxb r3, [r2+2]
and r3, 3
mov r0, 0
mov r6, 4
head:
add r0, r3
add r6, -1
back:
jne r6, 0, head
exit
"""

# Programs, and with which options a node has them. The first is that of the factory, beside an image that is not used.
PROGRAMS = {
    "factory": (QUOTA, []),
    "quota": (QUOTA, ["--image", "image", "--maps", "1"]),
    "one initiator": (ONE_INITIATOR, ["--image", "image"]),
    "rising": (RISING, ["--image", "image", "--maps", "1p"]),
    "looping": (LOOPING, ["--image", "image"]),
}

# A read that asks for a reply.
READ = 0x4C

# Instruction bytes: writes, reads and read-modify-writes, with and without increment, reply and verification, one whose code is
# not used, and one of a reply.
INSTRUCTIONS = [0x6C, 0x6C, 0x68, 0x64, 0x7C, 0x78, READ, READ, 0x48, 0x5C, 0x44, 0x2C]

# Extended addresses and addresses above which some are chosen: the beginning and the end of the bank and of the staging, and no
# bank at all.
PLACES = [(0x00, 0xA0000000), (0x00, 0xA000FFE0), (0xFF, 0x00000000), (0xFF, 0x00003FE0), (0x01, 0xA0000000)]

# The load result. Only a read goes there, so no command is a control write.
LOAD_RESULT = (0xFF, 0x00010000)

# What has to come, of `trace`, of `sim`, and of the statuses of replies.
KINDS = [f"verdict {verdict}" for verdict in ("0 after 2", "0 after 6", "0 after 9", "3 after 4", "4 after", "10 after", "12 after")]
KINDS += ["refused", "discard", "answered", "taken", "done 0", "done 3", "done 4", "done 10", "done 12"]

# The status of a reply by the verdict; any other is 10, and 0 that of what the command then does.
STATUSES = {3: 3, 12: 12}


def packet(random: Random) -> str:
    """The digits and the marker of a command, whose checks mostly hold."""
    instruction = random.choice(INSTRUCTIONS)
    goes_to_result = instruction == READ and random.randrange(4) == 0
    extended, address = LOAD_RESULT if goes_to_result else random.choice(PLACES)
    data = random.randbytes(random.choice([0, 1, 4, 8, 8, 16, 20]))
    head = header(instruction, address + random.randrange(32), len(data), key=random.choice([0x00, 0x20, 0x20]),
                  initiator=random.choice([0x42, 0x67, 0x67]), transaction=random.randrange(256), extended=extended)
    head += bytes([crc(head) ^ (random.randrange(12) == 0)])
    body = data + bytes([crc(data) ^ (random.randrange(8) == 0)])
    part = random.randrange(10)
    whole = [head[:12], head + data, head][part] if part < 3 else head + body
    return f"{whole.hex().upper()} {'EEP' if random.randrange(8) == 0 else 'EOP'}"


def as_judged(told: str) -> list[str]:
    """What `judge` prints of packets of which `sim` prints this."""
    lines = []
    for line in told.splitlines():
        kind, *rest = line.split(" ")
        if kind == "discard":
            lines.append(f"0 {line}")
        elif kind in ("answered", "done"):
            lines.append("0 -" if rest[1] == "-" else f"0 {rest[1]} EOP")
    return lines


def check_ending(step: str, reply: str) -> None:
    """That the last line of a run has a verdict within the budget, from which the reply has its status, where it is due."""
    ending = re.search(r" verdict (\d+) after (\d+) steps, budget (\d+)$", step)
    if ending is None:
        raise Differs(f"the last line of a run: {step}")
    verdict, steps, budget = map(int, ending.groups())
    is_right = verdict == 0 or reply == "0 -" or int(reply[8:10], 16) == STATUSES.get(verdict, 10)
    if steps > budget or not is_right:
        raise Differs(f"{step}\n{reply}")


def without_runs(told: str) -> list[str]:
    """The lines of `trace` that `judge` prints too: all but those of runs."""
    lines, step = [], None
    for line in told.splitlines():
        if line.startswith(("    ", "0 taken ")):
            step = line
            continue
        if step is not None:
            check_ending(step, line)
        step = None
        lines.append(line)
    if step is not None:
        raise Differs(f"trace ends within a run: {step}")
    return lines


def check(random: Random, room: Room, seen: Counter[str]) -> None:
    name = random.choice(list(PROGRAMS))
    text, options = PROGRAMS[name]
    packets = [packet(random) for _ in range(PACKETS)]
    room.put("lines", "".join(f"0 {it}\n" for it in packets))
    room.put("events", "".join(f"take 0 {it}\ncount 0\nticket 0\npeak 0\neffect 0\npublish 0\n" for it in packets))
    room.put("text", text)
    room.printed("asm", "text", "image")
    judged = room.printed("judge", "lines", *options).splitlines()
    stepped = room.printed("sim", "events", *options)
    traced = room.printed("trace", "lines", *options)
    same_lines("sim", as_judged(stepped), judged)
    same_lines("trace", without_runs(traced), judged)
    seen[name] += 1
    for kind in KINDS:
        seen[kind] += (stepped + traced).count(kind + " ") + stepped.count(kind + "\n")


main(__doc__, check, FILES, [*KINDS, *PROGRAMS])
