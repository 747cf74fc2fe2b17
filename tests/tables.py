#!/usr/bin/env python3
"""Compares what words of rmapctl answer with the rows of tests/tables, of which other programs computed most.

Usage: tests/tables.py [--program FILE] [NAME..]

A row has what is given, an arrow, and what is wanted. The parts of either stand between bars; of a row with a name the name comes
first. A line that begins with `#` says where the rows below it come from. NAME is a file of tests/tables without its ending.
Prints each row that differs, with what came; the last line is `N passed, M failed`. The status is 1 where M is not 0, and 2 where
there is no program or no table.
"""
from __future__ import annotations

import argparse
import os
import re
import sys
from collections.abc import Callable, Iterator
from pathlib import Path

sys.dont_write_bytecode = True
from rmapctl import PROVED, TOP, Differs, Done, Room

TABLES = TOP / "tests" / "tables"

# Packet lines of two ports, and what is printed of them: the test of the libraries reads both too.
PACKETS = TOP / "crates" / "test_tables" / "data"

# The names of the reasons to discard, by their codes.
DISCARDS = ["", "Short", "Protocol", "Reply", "HeaderCrc"]

# The plain read, as a packet line.
PLAIN_READ = "0 FE014C0067000100A0000000000010C9 EOP\n"

# The codes of refusals for the form of a program.
OF_FORM = ["1", "2", "3", "10", "13", "14", "15", "16"]

# The operands in a row of `corners`, each of the first with each of the second.
FIRST = [0, 1, 2**64 - 1, 2**63, 2**63 - 1, 2**31]
SECOND = [0, 1, 2**64 - 1, 2**63, 2**63 - 1, 31, 32, 63, 64]

# What a row has for no maps, no image and no input.
NONE = "-"

# What comes of what a row gives.
Answer = Callable[[Room, str], str]


def spelled(text: str, line_end: str) -> str:
    """The lines of a text, which stand apart by `line_end`; a tab is written `\\t`, a carriage return `\\r`."""
    return text.replace(line_end, "\n").replace("\\t", "\t").replace("\\r", "\r")


def maps_of(sizes: str) -> list[str]:
    """The words for maps of these sizes, with spaces or commas between them."""
    return [] if sizes in ("", NONE) else ["--maps", sizes.replace(" ", ",")]


def told(done: Done) -> str:
    """What a job printed, its lines apart by slashes, and its exit status behind a bar where it is not 0. Of words that are no job
    the first line is told."""
    text = done.out if done.status != 2 else done.err.splitlines()[0]
    printed = text.decode().removesuffix("\n").replace("\n", "/")
    return printed if done.status == 0 else f"{printed}|{done.status}"


def assembled(room: Room, text: str) -> str:
    """Assembles a text to the file `image`: what is printed."""
    room.put("text", text)
    return room.job("asm", "text", "image").out.decode().strip()


def program(room: Room, text: str, budget: str | int) -> None:
    """Makes the image of a program, whose lines stand apart by semicolons."""
    printed = assembled(room, f".budget {budget}\n{spelled(text, ';')}\n")
    if not printed.startswith("slots "):
        raise Differs(f"asm: {printed}")


def verified(room: Room, sizes: str = "") -> str:
    """`ok`, or the code and the slot of a refusal."""
    printed = room.job("verify", "image", *maps_of(sizes)).out.decode().strip()
    refused = re.fullmatch(r"refused V(\d+) slot (\d+)", printed)
    return f"{refused[1]} {refused[2]}" if refused else "ok" if printed.startswith("accepted ") else printed


def crc(room: Room, given: str) -> str:
    if given:
        room.put("data", bytes.fromhex(given))
    line = room.printed("packet", "write", "A0000000", "@data" if given else "-")
    return line.split()[1][-2:]


def discard(room: Room, given: str) -> str:
    printed = room.job("judge", "-", given=given.split("|")[1] + "\n").out.decode()
    code = re.fullmatch(r"0 discard (\d)\n", printed)
    return DISCARDS[int(code[1])] if code else NONE


def instruction(room: Room, given: str) -> str:
    text = f".budget 1\n{given}\n"
    assembled(room, text)
    if room.printed("dis", "image") != text:
        return "another text"
    return (room.content("image") or b"")[16:].hex()


def slot_fault(room: Room, given: str) -> str:
    slots = bytes.fromhex(given.replace("|", ""))
    room.put("image", b"BPFA\1\0" + (len(slots) // 8).to_bytes(2, "little") + b"\1\0\0\0\0\0\0\0" + slots)
    printed = room.job("why", "image").out.decode()
    if not printed.startswith("image fault 7 slot 0\n"):
        return "0"
    return next(str(code) for code in range(1, 5) if insn_fault(room, code) in printed)


def insn_fault(room: Room, code: int) -> str:
    """What `explain` says of a fault of an instruction."""
    return room.printed("explain", f"insn{code}").splitlines()[0].removeprefix(f"insn{code}  ")


def image_of_text(room: Room, given: str) -> str:
    printed = assembled(room, spelled(given, "/"))
    fault = re.fullmatch(r"asm (fault \d+ line \d+)", printed.splitlines()[0])
    return fault[1] if fault else (room.content("image") or b"").hex()


def parts(room: Room, given: str) -> str:
    found = re.fullmatch(r"slots (\d+) loops (\d+) budget (\d+)", assembled(room, spelled(given, "/")))
    return "|".join(found.groups()) if found else "no image"


def printed_again(room: Room, given: str) -> str:
    assembled(room, spelled(given, "/"))
    image, text = room.content("image"), room.printed("dis", "image")
    assembled(room, text)
    return text.replace("\n", "/") if room.content("image") == image else "a text of another image"


def corners(room: Room, given: str) -> str:
    """The results that are traced; the interpreter comes to the mixture of all."""
    pairs = [f"lddw r0, {a}\nlddw r1, {b}\n{given}\nmul r6, 31\nadd r6, r0\n" for a in FIRST for b in SECOND]
    assembled(room, f".budget 512\nmov r6, 0\n{''.join(pairs)}mov r0, r6\nexit\n")
    steps = room.printed("trace", "-", "--image", "image", given=PLAIN_READ).splitlines()
    results = [number(step.split(" = ")[1]) for step in steps if f": {given} " in step]
    mixture = 0
    for result in results:
        mixture = (31 * mixture + result) % 2**64
    entry = room.printed("live", "--image", "image", given=PLAIN_READ + "journal\n").splitlines()[1]
    if entry.split()[4] != str(mixture):
        raise Differs(f"the verdict is {entry.split()[4]}, and traced is {mixture}")
    return " ".join(f"{result:x}" for result in results)


def number(text: str) -> int:
    """A number as `trace` has it."""
    return int(text, 16) if text.startswith("0x") else int(text)


def form(room: Room, given: str) -> str:
    """The first fault of the form; a refusal for what values may do comes behind all of these."""
    _, text, budget = given.split("|")
    program(room, text, budget)
    found = verified(room)
    return found if found.split()[0] in OF_FORM else "ok"


def answer(room: Room, given: str) -> str:
    """The answer to a program. What is accepted is accepted in version 2 too, with the same weight."""
    _, text, budget, sizes = given.split("|")
    program(room, text, budget)
    found = verified(room, sizes)
    if found != "ok":
        return found
    first = room.printed("verify", "image", *maps_of(sizes))
    program(room, f".version 2; {text}", budget)
    return "ok" if room.printed("verify", "image", *maps_of(sizes)) == first else "another answer in version 2"


def weighed(room: Room, given: str) -> str:
    _, text, sizes = given.split("|")
    program(room, text, 1)
    weight = re.search(r"^weight (\d+) budget 1$", room.job("why", "image").out.decode(), re.MULTILINE)
    if weight is None:
        return "no weight"
    program(room, text, weight[1])
    return f"{weight[1]}|{verified(room, sizes)}"


def pieces(room: Room, given: str) -> str:
    ports, lines = given.split("|")
    done = room.job("judge", "-", "--ports", ports, given=spelled(lines, "/") + "\n")
    return f"{told(done).partition('|')[0]}|{done.status}"


def job(room: Room, command: str, maps: str, ports: str, image: str, lines: str) -> str:
    """What a job prints on a node of this kind, by this image and of these lines."""
    words = {"verify": ["image"], "policy": ["lines", "image"]}.get(command, ["lines", "--ports", ports])
    room.put("lines", spelled(lines, "/"))
    if image != NONE:
        assembled(room, spelled(image, ";") + "\n")
        words += ["--image", "image"] if command in ("judge", "sim") else []
    return told(room.job(command, *words, *maps_of(maps)))


def schedule(room: Room, given: str) -> str:
    return job(room, "sim", *given.split("|")[1:])


def peaks(room: Room, given: str) -> str:
    return job(room, *given.split("|")[1:])


def versions(room: Room, given: str) -> str:
    _, maps, version, text = given.split("|")
    assembled(room, spelled(text, ";") + "\n")
    if (room.content("image") or b"")[4:5] != bytes([int(version)]):
        return "another version"
    return room.job("verify", "image", *maps_of(maps)).out.decode().strip()


def charts(room: Room, given: str) -> str:
    command, maps, old, new = given.split("|")
    room.put("old", old.replace(" / ", "\n"))
    room.put("new", new.replace(" / ", "\n"))
    return told(room.job(command, "old", *(["new"] if command == "compare" else []), *maps_of(maps)))


ANSWERS: dict[str, Answer] = {
    "crcs": crc, "discards": discard, "insns": instruction, "slots": slot_fault, "texts": image_of_text, "parts": parts,
    "printed": printed_again, "corners": corners, "forms": form, "programs": answer, "neighbours": weighed, "pieces": pieces,
    "schedules": schedule, "peaks": peaks, "version2": versions, "charts": charts,
}


def rows_of(name: str) -> Iterator[tuple[str, str]]:
    """What each row of a table gives, and what it wants."""
    for line in (TABLES / f"{name}.txt").read_text(encoding="utf-8").splitlines():
        if not line.startswith("#"):
            given, arrow, wanted = line.partition(" => ")
            if not arrow:
                raise Differs(f"a row without an arrow: {line}")
            yield given, wanted


def difference(room: Room, name: str, given: str, wanted: str) -> str | None:
    """What differs in a row, or None."""
    try:
        came = ANSWERS[name](room, given)
    except Differs as error:
        came = str(error)
    return None if came == wanted else f"{name}: {given} => {wanted}\nwhat came: {came}"


def replies(room: Room) -> Iterator[str | None]:
    """What differs in each reply to the packets of two ports."""
    came = room.printed("judge", str(PACKETS / "packets.txt"), "--ports", "2").splitlines()
    wanted = (PACKETS / "replies.txt").read_text().splitlines()
    for line, other in zip(wanted, came + [""] * len(wanted)):
        yield None if line == other else f"replies: {line}\nwhat came: {other}"
    for line in came[len(wanted):]:
        yield f"replies: {line} is printed too"


def differences(room: Room, name: str) -> list[str | None]:
    """What differs in each row of a table."""
    if name == "replies":
        return list(replies(room))
    return [difference(room, name, given, wanted) for given, wanted in rows_of(name)]


def words() -> argparse.Namespace:
    """The words of the command line."""
    names = [*ANSWERS, "replies"]
    parser = argparse.ArgumentParser(description=__doc__.split("\n\n")[0], epilog=__doc__.split("\n\n", 2)[2],
                                     formatter_class=argparse.RawDescriptionHelpFormatter)
    parser.add_argument("--program", metavar="FILE", default=PROVED, type=Path)
    parser.add_argument("names", nargs="*", metavar="NAME", default=names)
    given = parser.parse_args()
    if not os.access(given.program, os.X_OK) or given.program.is_dir():
        parser.error(f"there is no program {given.program}")
    if unknown := [name for name in given.names if name not in names]:
        parser.error(f"there is no table {unknown[0]}")
    return given


def main() -> int:
    given = words()
    with Room(given.program.resolve()) as room:
        found = [text for name in given.names for text in differences(room, name)]
    for text in filter(None, found):
        print(text)
    failed = len(found) - found.count(None)
    print(f"{found.count(None)} passed, {failed} failed")
    return int(failed > 0)


if __name__ == "__main__":
    sys.exit(main())
