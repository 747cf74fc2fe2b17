#!/usr/bin/env python3
"""Random lines at the edges of blocks of digits: writes of some bytes and reads of the same at any port, in words that are cut
anywhere, and one character at last that is no digit. `judge` prints the replies of the standard, and then the fault."""
import sys
from collections import Counter
from pathlib import Path
from random import Random

sys.dont_write_bytecode = True
sys.path.insert(0, str(Path(__file__).resolve().parent.parent))
from generator import main
from packets import crc, header
from rmapctl import Differs, Room

# How many files of lines the gate makes.
FILES = 150

ADDRESS = 0xA0000000
READ, WRITE = 0x4C, 0x6C

# Sizes of data: each small one, and those round the sizes that are printed or read at once.
SIZES = [*range(1, 70), *range(110, 130), *range(240, 260), *range(4090, 4097)]

# What is no digit, beside the digits in the table of characters and far from them.
NO_DIGITS = "/:@Gg`~\t\r-+xé"


def checked(data: bytes) -> bytes:
    """Bytes and their check."""
    return data + bytes([crc(data)])


def reply(instruction: int, transaction: int, data: bytes | None) -> bytes:
    """The reply to a command that was done: in write form, or in read form with these bytes."""
    head = bytes([0x67, 1, instruction & 0x3F, 0, 0xFE]) + transaction.to_bytes(2, "big")
    if data is None:
        return checked(head)
    return checked(head + bytes([0]) + len(data).to_bytes(3, "big")) + checked(data)


def digits(random: Random, data: bytes) -> str:
    """The digits of bytes in either case, in words that are cut anywhere between two bytes."""
    words = [f"{byte:02X}" if random.random() < 0.8 else f"{byte:02x}" for byte in data]
    gaps = random.choice([0, 0, 0, 0.02, 0.5])
    return "".join(word + " " * (random.randrange(1, 3) if random.random() < gaps else 0) for word in words).rstrip()


def line(random: Random, port: int, data: bytes) -> str:
    """The line of a packet at a port."""
    before, between = (" " * random.choice([0, 0, 0, 1, 2]) for _ in range(2))
    number = random.choice([f"{port}", f"{port}", f"{port:02}", f"{port:03}"])
    return f"{before}{number} {between}{digits(random, data)} EOP{between}\n"


def bad_line(random: Random, data: bytes) -> str:
    """A line with one character that is no digit, in the place of a digit."""
    text = data.hex()
    place = random.randrange(len(text))
    return f"0 {text[:place]}{random.choice(NO_DIGITS)}{text[place + 1:]} EOP\n"


def check(random: Random, room: Room, seen: Counter[str]) -> None:
    lines, wanted = [], []
    for number in range(random.randrange(1, 12)):
        port, size, transaction = random.randrange(32), random.choice(SIZES), random.randrange(0x10000)
        data = random.randbytes(size)
        write = checked(header(WRITE, ADDRESS, size, transaction=transaction)) + checked(data)
        read = checked(header(READ, ADDRESS, size, transaction=transaction))
        lines += [line(random, port, write), line(random, port, read)]
        wanted += [f"{port} {reply(WRITE, transaction, None).hex().upper()} EOP\n", f"{port} {reply(READ, transaction, data).hex().upper()} EOP\n"]
        seen["bytes"] += size
    if random.random() < 0.7:
        wanted.append(f"line {len(lines) + 1} fault 2\n")
        lines.append(bad_line(random, random.randbytes(random.choice(SIZES))))
        seen["faults"] += 1
    room.put("lines", "".join(lines))
    came = room.job("judge", "lines", "--ports", "32").out.decode()
    if came != "".join(wanted):
        raise Differs(f"lines:\n{''.join(lines)}judged:\n{came}wanted:\n{''.join(wanted)}")


main(__doc__, check, FILES, {"bytes": 50_000, "faults": 50})
