#!/usr/bin/env python3
"""Random lines of one port: `serve` prints the replies that `judge` prints, and how many packets were discarded."""
import sys
from collections import Counter
from pathlib import Path
from random import Random

sys.dont_write_bytecode = True
sys.path.insert(0, str(Path(__file__).resolve().parent.parent))
from generator import main
from rmapctl import Differs, Room

# How many files of lines the gate makes.
FILES = 200

# Commands that are answered or not, packets that are none, pieces of packets, and a program that is staged and loaded.
LINES = [
    "0 FE016C0067000000A00000000000109F0123456789ABCDEF101112131415161756 EOP\n",
    "0 FE014C0067000100A0000000000010C9 EOP\n",
    "0 FE014C0067000100A0000000000010C9 EOP\n",
    "0 EOP\n",
    "0 FE01 EEP\n",
    "0 FE01640067000000A0000000000010610123456789ABCDEF101112131415161756 EOP\n",
    "0 FE014C0067000100A0000000000010C8 EOP\n",
    "0 FE016C0067000000A00000000000109F0123456789ABCDEF101112131415161757 EOP\n",
    "0 FE014C PART\n",
    "0 0067000100A0000000000010C9 EOP\n",
    "0 PART\n",
    "0 FE016C00670010FF00000000000020B642504641010002000200000000000000B70000000A000000950000000000000056 EOP\n"
    "0 FE016C00670011FF000100000000049201000020B4 EOP\n",
]


def as_served(judged: str) -> str:
    """What `serve` has to print where `judge` prints this."""
    lines = judged.splitlines()
    replies = [line + "\n" for line in lines if line.endswith(" EOP")]
    return "".join(replies) + f"discarded {sum('discard' in line for line in lines)} lost 0\n"


def check(random: Random, room: Room, seen: Counter[str]) -> None:
    room.put("lines", "".join(random.choices(LINES, k=random.randrange(24))))
    wanted = as_served(room.printed("judge", "lines"))
    came = room.printed("serve", "lines")
    if came != wanted:
        raise Differs(f"served:\n{came}judged:\n{wanted}")
    seen["replies"] += wanted.count("EOP")
    seen["denied"] += wanted.count(" 67012C0A")


main(__doc__, check, FILES, {"replies": 500, "denied": 20})
