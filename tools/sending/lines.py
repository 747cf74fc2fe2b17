"""Packet lines, and what is known of the replies to their packets."""
from __future__ import annotations

import string
import sys
from dataclasses import dataclass
from typing import NamedTuple, Optional

from sending.telling import Stop

FLAGS = {"EOP": 0, "EEP": 1, "PART": 2}
PORTS = 32
# The bytes of a path that routers take away.
PATH = bytes(range(PORTS))
# The first words of lines that `judge` and `live` print beside what becomes of a packet.
OTHER_LINES = ("journal", "bank", "entry", "cells", "map", "set", ">")


class PacketLine(NamedTuple):
    port: int
    data: bytes
    marker: str


def port_of(word: str) -> Optional[int]:
    """The number of a port: decimal digits, with any number of zeros in front."""
    digits = word.lstrip("0") or word[-1:]
    is_port = word.isascii() and word.isdigit() and len(digits) <= 2 and int(digits) < PORTS
    return int(digits) if is_port else None


def packet_line(text: str) -> PacketLine:
    words = [word for word in text.split(" ") if word]
    port = port_of(words[0]) if words else None
    if text.endswith("\r"):
        raise Stop("the line ends in \\r: write it with a line feed only")
    if port is None:
        raise Stop("no port: a number from 0 to 31")
    if words[-1] not in FLAGS:
        raise Stop("no end marker: EOP, EEP or PART")
    digits = "".join(words[1:-1])
    if not all(digit in string.hexdigits for digit in digits) or any(len(word) % 2 for word in words[1:-1]):
        raise Stop("no bytes: pairs of hexadecimal digits")
    return PacketLine(port, bytes.fromhex(digits), words[-1])


def text_of(name: str) -> list[str]:
    """The lines of a file, or of standard input."""
    try:
        with open(sys.stdin.fileno() if name == "-" else name, encoding="ascii", newline="\n", closefd=name != "-") as file:
            text = file.read()
    except OSError as error:
        raise Stop(f"cannot read {name}: {error.strerror}") from None
    except UnicodeDecodeError as error:
        begins = "it begins with a BOM" if error.object[:3] == b"\xef\xbb\xbf" else "it is no text of packet lines"
        raise Stop(f"cannot read {name}: {begins}") from None
    return text.removesuffix("\n").split("\n") if text else []


def read_lines(name: str) -> list[PacketLine]:
    """The packets of a file, all of one port."""
    lines: list[PacketLine] = []
    for number, text in enumerate(text_of(name), 1):
        try:
            lines.append(packet_line(text))
        except Stop as stop:
            raise Stop(f"line {number}: {stop}") from None
        if lines[-1].port != lines[0].port:
            raise Stop(f"line {number} is of port {lines[-1].port}, line 1 of port {lines[0].port}: a connection is one port")
    return lines


def due_of(text: str) -> Optional[str]:
    """What a line of `judge` or `live` says of a packet, without its port, or None for a line that says nothing of one."""
    words = text.split()
    if words[:1] and words[0] in OTHER_LINES:
        return None
    if len(words) in (2, 3) and port_of(words[0]) is not None:
        if words[1:] == ["-"] or words[1] == "discard":
            return "-"
        if words[2:] in (["EOP"], ["EEP"]) and all(digit in string.hexdigits for digit in words[1]):
            return f"{words[1].upper()} {words[2]}"
    raise Stop("no line that judge or live prints of a packet")


def read_due(name: str, packets: int) -> list[str]:
    """What is due for each packet."""
    due: list[str] = []
    for number, text in enumerate(text_of(name), 1):
        try:
            answer = due_of(text)
        except Stop as stop:
            raise Stop(f"{name}, line {number}: {stop}") from None
        due += [] if answer is None else [answer]
    if len(due) != packets:
        raise Stop(f"{name} has what is due for {len(due)} packets, and {packets} are sent")
    return due


class Awaited:
    """What is known of the reply to a command: its path, the initiator's address, and the transaction."""

    def __init__(self, command: bytes, place: int):
        self.path = command[4:place].lstrip(b"\0") or command[4:place][:1]
        self.initiator, self.transaction = command[place:place + 1], command[place + 1:place + 3]

    def transaction_of(self, reply: bytes) -> Optional[bytes]:
        """The transaction of a reply, to this command or to an earlier one; or None of what is no reply."""
        if reply.startswith(self.path + self.initiator):
            reply = reply[len(self.path):]
        else:
            reply = reply.lstrip(PATH)
        return reply[5:7] if len(reply) >= 8 and reply[1] == 1 and reply[2] & 0xC0 == 0 else None


# What no reply has: so all that comes after the last packet is late, or too much.
AFTER = Awaited(bytes(4), 4)


def awaited(packet: bytes) -> Optional[Awaited]:
    """What is known of the reply to a packet, or None if the reply bit of a command is not set."""
    command = packet.lstrip(PATH)
    if len(command) < 4 or command[1] != 1 or command[2] & 0xC0 == 0 or not command[2] & 0x08:
        return None
    place = 4 + 4 * (command[2] & 3)
    return Awaited(command, place) if len(command) >= place + 3 else None


@dataclass
class Packet:
    """A packet with the number of its last line, and the frames by which it goes."""
    number: int
    port: int
    frames: list[tuple[bytes, str]]

    def data(self) -> bytes:
        return b"".join(data for data, _ in self.frames)


def packets_of(lines: list[PacketLine]) -> tuple[list[Packet], list[tuple[bytes, str]]]:
    """The packets of these lines, and the pieces at their end of a packet that does not end."""
    packets: list[Packet] = []
    pieces: list[tuple[bytes, str]] = []
    for number, line in enumerate(lines, 1):
        pieces.append((line.data, line.marker))
        if line.marker != "PART":
            packets.append(Packet(number, line.port, pieces))
            pieces = []
    return packets, pieces
