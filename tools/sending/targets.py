"""A target behind frames, and what it answers."""
from __future__ import annotations

import socket
import time
from typing import Iterator, Optional

from sending.lines import FLAGS, PATH, Awaited, Packet, awaited
from sending.telling import Stop, tell

HEAD = 12
# No reply is longer: a path, a header, data of 24 bits of length, and a CRC; frames beside it are shorter.
LONGEST = 2**24 + 1024
# How many seconds a connection and a frame that is sent may take.
PATIENCE = 60


class Target:
    """A connection that carries frames."""

    def __init__(self, host: str, port: int):
        try:
            self.socket = socket.create_connection((host, port), timeout=PATIENCE)
        except OSError as error:
            raise Stop(f"{f'[{host}]' if ':' in host else host}:{port}: {error.strerror or error}") from None
        self.socket.setsockopt(socket.IPPROTO_TCP, socket.TCP_NODELAY, 1)
        self.held, self.packet = bytearray(), b""

    def send(self, data: bytes, marker: str) -> None:
        self.socket.settimeout(PATIENCE)
        try:
            self.socket.sendall(bytes([FLAGS[marker], 0]) + len(data).to_bytes(10, "big") + data)
        except OSError as error:
            raise Stop(f"the connection is closed: {error.strerror or error}") from None

    def packets(self, end: float) -> Iterator[tuple[bytes, str]]:
        """The packets that come, each with its marker, until the time is over."""
        while time.monotonic() < end:
            frame = self.frame()
            if frame is None:
                if not self.receive(end - time.monotonic()):
                    return
                continue
            flag, body = frame
            if flag <= 2:
                self.packet += body
                self.look(len(self.packet))
            if flag <= 1:
                packet, self.packet = self.packet, b""
                yield packet, "EEP" if flag else "EOP"

    def frame(self) -> Optional[tuple[int, bytes]]:
        """The next frame that came whole."""
        if len(self.held) < HEAD:
            return None
        length = int.from_bytes(self.held[2:HEAD], "big")
        self.look(length)
        if len(self.held) < HEAD + length:
            return None
        flag, body = self.held[0], bytes(self.held[HEAD:HEAD + length])
        del self.held[:HEAD + length]
        return flag, body

    def look(self, length: int) -> None:
        if length > LONGEST:
            raise Stop(f"the target sends a packet of {length} bytes: no reply is longer than {LONGEST}")

    def receive(self, seconds: float) -> bool:
        """Takes what comes, and reports whether anything came in time."""
        self.socket.settimeout(max(seconds, 0.000001))
        try:
            more = self.socket.recv(65536)
        except (TimeoutError, BlockingIOError):
            return False
        except OSError as error:
            raise Stop(f"the connection is closed: {error.strerror}") from None
        if not more:
            raise Stop("the target has closed the connection")
        self.held += more
        return True


class Bench:
    """A target, how long a reply may take, and what came of each packet."""

    def __init__(self, target: Target, wait: int, quiet: int):
        self.target, self.wait, self.quiet = target, wait, quiet
        self.missing = self.different = 0
        # The transactions whose reply did not come in time, and what came late or too often, by its transaction.
        self.owed: set[bytes] = set()
        self.late: dict[bytes, str] = {}
        self.extra: dict[bytes, str] = {}

    def answer(self, wanted: Optional[Awaited], wait: int) -> Optional[str]:
        """Waits for the reply with that transaction; without one, for any that nobody waits for. What else comes is printed on standard
        error."""
        for packet, marker in self.target.packets(time.monotonic() + wait / 1000):
            line = f"{packet.hex().upper()} {marker}"
            found = wanted.transaction_of(packet) if wanted else transaction_in(packet)
            if found == wanted.transaction if wanted else found not in self.owed:
                return line
            if found is not None:
                (self.late if found in self.owed else self.extra)[found] = line
            tell(f"no reply: {line}" if found is None else f"late: transaction {found.hex().upper()}: {line}")
        return None

    def send(self, packet: Packet, due: Optional[str]) -> Optional[str]:
        """Sends a packet, and prints what comes of it. If no reply is due, any that comes is what came."""
        for data, marker in packet.frames:
            self.target.send(data, marker)
        wanted = awaited(packet.data())
        if due == "-":
            came = self.answer(None, self.quiet)
        else:
            came = self.answer(wanted, self.wait) if wanted else None
            self.owed |= {wanted.transaction} if wanted and came is None else set()
        print(f"{packet.port} {came or '-'}", flush=True)
        if due is None:
            if wanted and not came:
                self.missing += 1
                tell(f"no reply within {self.wait} ms to transaction {wanted.transaction.hex().upper()}")
        return came

    def differs(self, packet: Packet, due: str, came: Optional[str]) -> None:
        self.different += 1
        tell(f"line {packet.number}: {packet.port} {due} is due, and {packet.port} {came or '-'} came")


def transaction_in(packet: bytes) -> Optional[bytes]:
    """The transaction of a reply that no command waits for."""
    reply = packet.lstrip(PATH)
    return reply[5:7] if len(reply) >= 8 and reply[1] == 1 and reply[2] & 0xC0 == 0 else None
