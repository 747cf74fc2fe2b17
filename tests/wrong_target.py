#!/usr/bin/env python3
"""A target in Python that is reached by frames, for runs of a suite: written from docs/PROTOCOL.md by models/nodes.py, right, or with
one fault planted.

Usage: tests/wrong_target.py [FAULT]     prints the port at which it listens, serves one connection, and ends
       tests/wrong_target.py --faults    prints the names of the faults

The target `choices` is right, and makes six choices of docs/CONFORMANCE.md, *Choices*, otherwise."""
from __future__ import annotations

import socket
import sys
import time
from pathlib import Path
from typing import Callable, Iterator

sys.dont_write_bytecode = True
sys.path.insert(0, str(Path(__file__).resolve().parent))
from models.images import BadImage, Image, form_fault, parsed
from models.nodes import INCREMENT, MODIFY, STAGING, VERIFY, WRITE, Bank, OwnNode, Packet, yes_image
from packets import crc

# What is planted, by the line of the order of checks or the effect that it spoils.
FAULTS = {
    "short": "takes a packet of ten bytes for a read and answers it",
    "protocol": "takes any protocol identifier",
    "reply-type": "takes the packet type 00 for that of commands",
    "header-crc": "takes a wrong header CRC",
    "reserved-type": "carries commands of a reserved packet type out",
    "unused-code": "answers an unused code with status 10",
    "target-address": "takes any logical address",
    "rmw-length": "takes a read-modify-write of any length",
    "verify-buffer": "verifies any number of bytes",
    "length": "takes 4,097 bytes",
    "place": "takes a byte past the end of a bank",
    "no-bank": "takes an extended address that no bank has for the first",
    "eep": "carries a packet out that ends in EEP",
    "early-eop": "carries a write out whose data CRC is missing",
    "too-much-data": "passes over bytes after the data",
    "data-crc": "carries a write out with a wrong data CRC",
    "data-before-crc": "writes before it looks at the data CRC, and answers as it should",
    "increment": "increments without the increment bit",
    "mask": "takes the mask of a read-modify-write for all ones",
    "old-bytes": "answers a read-modify-write with the new bytes",
    "last-byte": "leaves the last byte of a write as it was",
    "path": "keeps the zeros in front of the reply address",
    "zero-path": "sends no zero byte for a reply address of zeros",
    "no-reply": "answers a write that wants no reply",
    "reply-crc": "computes the header CRC of a reply over its path too",
    "error-length": "gives the length that was asked in error replies",
    "order": "looks at the data length before the verify buffer",
    "load-result": "leaves the load result as it was if a load is refused",
    "load-slot": "loads into slot 4",
    "staging": "loses what is written to the staging",
    "transaction": "answers with the transaction before",
    "silent": "does not answer reads of more than 1,024 bytes",
    "late": "answers verified writes after 1.5 seconds",
    "choices": "is right, with other choices where the standard leaves one",
}
BASE, SIZE, ROOM = 0xA0000000, 65_536, 1_000_000


class Target(OwnNode):
    """A node of one bank, with that fault."""

    def __init__(self, fault: str):
        super().__init__(0xFE, 1, [Bank(BASE, SIZE, ROOM, bytearray(SIZE))], [], yes_image())
        self.fault = fault

    def has(self, fault: str) -> bool:
        return self.fault == fault

    def discards(self, packet: Packet) -> bool:
        why = packet.discard()
        passed = {1: "short", 2: "protocol", 3: "reply-type", 4: "header-crc"}
        return why is not None and not (self.has(passed[why]) and len(packet.data) >= (10 if why == 1 else packet.begin))

    def header_status(self, packet: Packet) -> int | None:
        kind, is_rmw = packet.instruction // 64, packet.code == MODIFY
        if self.has("choices"):
            return self.chosen(packet)
        if kind != 1 and not self.has("reserved-type") and not self.has("reply-type") or packet.code in (0, 1, 4, 5, 6):
            return 10 if self.has("unused-code") else 2
        if packet.data[0] != self.address and not self.has("target-address"):
            return 12
        if is_rmw and packet.length not in (0, 2, 4, 6, 8):
            return None if self.has("rmw-length") and packet.length % 2 == 0 else 11
        if self.has("order") and packet.length > 4096 and not is_rmw:
            return 10
        if packet.has(VERIFY) and packet.length > 1024 and not self.has("verify-buffer"):
            return 9
        most = 4097 if self.has("length") else 4096
        return 10 if packet.length > most or self.place(packet) is None else None

    def chosen(self, packet: Packet) -> int | None:
        """The same by other choices: key 20, verify buffer 512, at most 2,048 bytes, words of four bytes, read-modify-writes of 4 or 8
        bytes."""
        status = super().header_status(packet)
        if status is not None:
            return status
        if packet.code == MODIFY and packet.length not in (4, 8):
            return 11
        if packet.code >= 12 and packet.length > 512:
            return 9
        if packet.length > 2048 or packet.address % 4 or packet.length % 4:
            return 10
        return 3 if packet.data[3] != 0x20 else None

    def place(self, packet: Packet) -> str | None:
        if self.has("no-bank") and packet.extended not in (0, 0xFF):
            return "bank" if packet.lies(BASE, SIZE) else None
        if self.has("place") and packet.extended == 0 and packet.lies(BASE, SIZE + 1):
            return "bank"
        return super().place(packet)

    def served(self, port: int, packet: Packet) -> tuple[int, bytes]:
        status = self.header_status(packet)
        if status is not None:
            return status, b""
        packet = self.mended(packet)
        place, body = self.place(packet), packet.body_status()
        data = packet.data[packet.begin:packet.begin + packet.length]
        if body == 4 and self.has("data-before-crc"):
            self.write(packet, data)
        if body:
            return body, b""
        if place != "bank":
            return self.at_window(port, packet, str(place))
        return 0, self.done(packet, data)

    def mended(self, packet: Packet) -> Packet:
        """The packet without what the fault passes over."""
        head, body = packet.data[:packet.begin], packet.data[packet.begin:]
        carries = packet.has(WRITE) or packet.code == MODIFY
        if self.has("eep"):
            return Packet(packet.data, True)
        if self.has("too-much-data"):
            body = body[:packet.length + 1 if carries else 0]
        if carries and self.has("early-eop") and len(body) == packet.length:
            body += bytes([crc(body)])
        if carries and self.has("data-crc") and body:
            body = body[:-1] + bytes([crc(body[:-1])])
        return Packet(head + body, packet.is_whole)

    def memory(self, packet: Packet) -> tuple[bytearray, int]:
        """The bytes of its place, and where the command begins in them."""
        return self.banks[0].memory, packet.address - BASE

    def write(self, packet: Packet, data: bytes) -> None:
        memory, first = self.memory(packet)
        step = 1 if packet.has(INCREMENT) or self.has("increment") else 0
        for place, byte in enumerate(data[:-1] if self.has("last-byte") and len(data) > 1 else data):
            if first + place * step < len(memory):
                memory[first + place * step] = byte

    def done(self, packet: Packet, data: bytes) -> bytes:
        """What the command does to the bank, and the data of its reply."""
        memory, first = self.memory(packet)
        if packet.has(WRITE):
            self.write(packet, data)
            return b""
        step = 1 if packet.has(INCREMENT) else 0
        if packet.code != MODIFY:
            return bytes(memory[(first + place * step) % SIZE] for place in range(packet.length))
        half = packet.length // 2
        old = bytes(memory[first:first + half])
        for place in range(half):
            mask = 0xFF if self.has("mask") else data[half + place]
            memory[first + place] = data[place] & mask | memory[first + place] & ~mask
        return bytes(memory[first:first + half]) if self.has("old-bytes") else old

    def at_window(self, port: int, packet: Packet, place: str) -> tuple[int, bytes]:
        if place == "staging" and self.has("staging") and packet.has(WRITE):
            return 0, b""
        if place != "control":
            return super().at_window(port, packet, place)
        slot, zero, *size_bytes = packet.data[packet.begin:packet.begin + 4]
        size = int.from_bytes(size_bytes, "big")
        code, at, image = (71, 0, None) if zero or size > STAGING else (66, 0, None) if slot > 3 and not self.has("load-slot") \
            else self.image(bytes(self.staging[port][:size]))
        if image is not None:
            self.published += 1
        if code == 0 or not self.has("load-result"):
            self.results[port] = bytes([code, 0]) + at.to_bytes(2, "big") + (0 if code else self.published).to_bytes(4, "big")
        return int(code != 0), b""

    def image(self, data: bytes) -> tuple[int, int, Image | None]:
        try:
            image = parsed(data)
        except BadImage as fault:
            return 32 + fault.code, fault.slot, None
        refused = form_fault(image)
        return (*refused, None) if refused else (0, 0, image)

    def reply(self, packet: Packet, status: int, data: bytes) -> bytes:
        """The reply, as the fault has it."""
        whole = bytes.fromhex(packet.reply(status, data))
        way = packet.data[4:4 + packet.way]
        path = way.lstrip(b"\0") or way[:1]
        head, rest = (whole[len(path):][:-1], b"") if packet.has(WRITE) else (whole[len(path):][:11], whole[len(path) + 12:])
        if self.has("transaction"):
            head = head[:5] + ((int.from_bytes(head[5:7], "big") - 1) % 65536).to_bytes(2, "big") + head[7:]
        if self.fault in ("error-length", "choices") and status and not packet.has(WRITE):
            head = head[:8] + (packet.length % 2**24).to_bytes(3, "big")
        if self.has("path"):
            path = way
        if self.has("zero-path") and path == b"\0":
            path = b""
        return path + head + bytes([crc(path + head if self.has("reply-crc") else head)]) + rest

    def answer(self, packet: Packet) -> bytes | None:
        """The reply that is sent, if one is."""
        if self.discards(packet):
            return None
        if len(packet.data) < packet.begin:
            packet = Packet(packet.data.ljust(packet.begin, b"\0"), packet.is_whole)
        status, data = self.served(0, packet)
        if self.has("silent") and packet.length > 1024 and packet.code in (2, 3):
            return None
        if self.has("late") and packet.code >= 12:
            time.sleep(1.5)
        if not packet.has(8) and not self.has("no-reply"):
            return None
        wanted = Packet(packet.data[:2] + bytes([packet.instruction | 8]) + packet.data[3:], packet.is_whole)
        return self.reply(packet if packet.has(8) else wanted, status, data)


def packets(connection: socket.socket) -> Iterator[Packet]:
    """The packets that come in frames."""
    data, held = b"", b""
    while more := connection.recv(65536):
        held += more
        while len(held) >= 12 and len(held) >= 12 + int.from_bytes(held[2:12], "big"):
            end = 12 + int.from_bytes(held[2:12], "big")
            flag, data, held = held[0], data + held[12:end], held[end:]
            if flag <= 1:
                yield Packet(data, flag == 0)
                data = b""


def serve(server: socket.socket, answer: Callable[[Packet], bytes | None]) -> None:
    """Serves one connection."""
    with server:
        connection, _ = server.accept()
        with connection:
            for packet in packets(connection):
                reply = answer(packet)
                if reply is not None:
                    connection.sendall(bytes(2) + len(reply).to_bytes(10, "big") + reply)


def main(words: list[str]) -> int:
    if words == ["--faults"]:
        print("\n".join(f"{name}: {text}" for name, text in FAULTS.items()))
        return 0
    if len(words) > 1 or words and words[0] not in FAULTS:
        print(__doc__, file=sys.stderr)
        return 2
    server = socket.create_server(("localhost", 0))
    print(server.getsockname()[1], flush=True)
    serve(server, Target(words[0] if words else "").answer)
    return 0


if __name__ == "__main__":
    sys.exit(main(sys.argv[1:]))
