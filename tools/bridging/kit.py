"""What the trials of `tools/share` have in common: a bridge that runs, clients in lines and in frames, and files of entries."""
from __future__ import annotations

import os
import re
import resource
import signal
import socket
import subprocess
import sys
import threading
import time
from pathlib import Path
from typing import Callable, Optional

TOP = Path(__file__).resolve().parents[2]
WORDS = [word for word in sys.argv[1:] if not word.startswith("-")]
PROGRAM = os.path.abspath(WORDS[0] if WORDS else TOP / "crates/rmapctl/out/rmapctl")
IS_LONG = "--long" in sys.argv[1:]
SHARE, SEND = (str(TOP / "tools" / name) for name in ("share", "send"))
READ = "0 FE014C0067000500A000000000000462 EOP"
REPLY = "0 67010C00FE000500000004500000000000 EOP"
TIME = r"\d{4}-\d\d-\d\dT\d\d:\d\d:\d\d\.\d{3}Z"
ENTRY = re.compile(rf"({TIME}) (journal|entry [0-9A-F]{{2}}) (\d+) (\d+) \d+ \d+ \d+ ([0-9A-F]+) E[OE]P")
BEGIN = re.compile(rf"{TIME} begin \S+ [0-9a-f]{{16}}")
failed = False


def told(what: str, holds: bool, more: object = "") -> None:
    global failed
    failed = failed or not holds
    print(("ok      " if holds else "FAILED  ") + what + (f": {more}" if more != "" else ""), flush=True)


def crc(data: bytes) -> int:
    register = 0
    for byte in data:
        register ^= byte
        for _ in range(8):
            register = register >> 1 ^ (0xE0 if register & 1 else 0)
    return register


def read(transaction: int, count: int = 4) -> bytes:
    head = bytes.fromhex("FE014C0067") + transaction.to_bytes(2, "big") + bytes.fromhex("00A0000000") + count.to_bytes(3, "big")
    return head + bytes([crc(head)])


def line(packet: bytes, port: int = 0, end: str = "EOP") -> str:
    return f"{port} {packet.hex().upper()} {end}"


def free_ports(count: int) -> list[int]:
    sockets = [socket.create_server(("127.0.0.1", 0)) for _ in range(count)]
    found = [made.getsockname()[1] for made in sockets]
    for made in sockets:
        made.close()
    return found


def has_entries() -> bool:
    """Whether the program has `live --entries`."""
    return subprocess.run([PROGRAM, "live", "--entries"], stdin=subprocess.DEVNULL, capture_output=True, check=False).returncode == 0


def until(holds: Callable[[], bool], seconds: float = 10) -> bool:
    """Waits until something holds, at most so long; whether it does."""
    end = time.monotonic() + seconds
    while not holds() and time.monotonic() < end:
        time.sleep(0.01)
    return holds()


class Bridge:
    """`tools/share` that is ready, with what it prints."""

    def __init__(self, *options: str, ports: int = 1, frames: tuple[int, ...] = (), live: tuple[str, ...] = (), port: int = 0,
                 most_files: int = 0, is_waited_for: bool = True):
        self.port, *self.frames = free_ports(1 + len(frames))
        self.port = port or self.port
        words = [SHARE, str(self.port), *options]
        for at_port, at in zip(self.frames, frames):
            words += ["--frames", f"{at_port}:{at}"]
        words += [PROGRAM, "live", *(live if "--node" in live else ("--ports", str(ports), *live))]
        before = (lambda: resource.setrlimit(resource.RLIMIT_NOFILE, (most_files, most_files))) if most_files else None
        self.process = subprocess.Popen(words, stderr=subprocess.PIPE, text=True, bufsize=1, preexec_fn=before)
        self.told: list[str] = []
        self.reader = threading.Thread(target=lambda: self.told.extend(self.process.stderr), daemon=True)
        self.reader.start()
        if is_waited_for:
            until(lambda: self.is_ready() or self.process.poll() is not None, 30)

    def is_ready(self) -> bool:
        return any(" ready: " in text for text in self.told)

    def end(self, name: int = signal.SIGTERM) -> int:
        """Ends it by a signal: the exit status."""
        self.process.send_signal(name)
        status = self.process.wait(60)
        self.reader.join(5)
        return status

    def node(self) -> int:
        """The process of its node."""
        return int(subprocess.run(["pgrep", "-P", str(self.process.pid)], capture_output=True, text=True, check=True).stdout.split()[0])

    def memory(self, field: str = "VmHWM") -> int:
        """How many kB it holds (VmRSS), or held at most (VmHWM)."""
        with open(f"/proc/{self.process.pid}/status", encoding="ascii") as file:
            return int(re.search(rf"{field}:\s+(\d+)", file.read())[1])

    def seconds(self) -> float:
        """The time of a processor that it took."""
        with open(f"/proc/{self.process.pid}/stat", encoding="ascii") as file:
            words = file.read().rsplit(")", 1)[1].split()
        return (int(words[11]) + int(words[12])) / os.sysconf("SC_CLK_TCK")


class Lines:
    """A client in lines."""

    def __init__(self, port: int, host: str = "127.0.0.1"):
        self.socket = socket.create_connection((host, port), timeout=20)
        self.socket.setsockopt(socket.IPPROTO_TCP, socket.TCP_NODELAY, 1)
        self.talk = self.socket.makefile("rw", newline="\n")

    def send(self, *lines: str) -> None:
        self.talk.write("".join(text + "\n" for text in lines))
        self.talk.flush()

    def ask(self, *lines: str) -> str:
        self.send(*lines)
        return self.line()

    def line(self) -> str:
        return self.talk.readline().rstrip("\n")

    def close(self) -> None:
        self.talk.close()
        self.socket.close()


class Frames:
    """A client in frames."""

    def __init__(self, port: int):
        self.socket = socket.create_connection(("127.0.0.1", port), timeout=20)
        self.input = self.socket.makefile("rb")

    def send(self, packet: bytes, flag: int = 0) -> None:
        self.socket.sendall(bytes([flag, 0]) + len(packet).to_bytes(10, "big") + packet)

    def receive(self) -> tuple[bytes, bytes]:
        head = self.input.read(12)
        return head[:1], self.input.read(int.from_bytes(head[2:], "big"))

    def ask(self, packet: bytes) -> bytes:
        self.send(packet)
        return self.receive()[1]

    def close(self) -> None:
        self.input.close()
        self.socket.close()


def entries_of(*paths: str) -> list[Optional[re.Match[str]]]:
    """The entries of files, one after another; None for a line that is neither one nor the beginning of a node."""
    lines = [text.rstrip("\n") for path in paths for text in Path(path).read_text(encoding="ascii").splitlines(keepends=True)]
    return [ENTRY.fullmatch(text) for text in lines if not BEGIN.fullmatch(text)]


def packets_in(*paths: str) -> list[str]:
    """The packets of the entries of files; an error of the trial if a line is none."""
    return [entry[5] for entry in entries_of(*paths)]
