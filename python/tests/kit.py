"""What the tests share: a built program, if there is one, and targets over TCP that answer by a script."""
from __future__ import annotations

import os
import shutil
import socket
import subprocess
import sys
import threading
from pathlib import Path
from typing import Optional

TOP = Path(__file__).resolve().parents[2]
DENY = bytes.fromhex("42504641010002000200000000000000B70000000A0000009500000000000000")


def program() -> Optional[str]:
    """The `rmapctl` of SANDBAR_PROGRAM, of the gate, or of the path."""
    built = TOP / "crates/rmapctl/out/rmapctl"
    return os.environ.get("SANDBAR_PROGRAM") or (str(built) if built.exists() else shutil.which("rmapctl"))


def run(*words: str, text: str = "") -> str:
    return subprocess.run([program(), *words], input=text, capture_output=True, text=True, check=False).stdout


def python(path: Path) -> str:
    """What a program in Python prints, beside this module."""
    room = dict(os.environ, PYTHONPATH=os.pathsep.join(sys.path))
    return subprocess.run([sys.executable, str(path)], capture_output=True, text=True, check=True, env=room).stdout


def free_port() -> int:
    with socket.create_server(("127.0.0.1", 0)) as made:
        return made.getsockname()[1]


class Shared:
    """`tools/share` over a built program."""

    def __init__(self, *words: str, spoil: Optional[str] = None):
        self.lines, self.frames = free_port(), free_port()
        share = os.environ.get("SANDBAR_SHARE", str(TOP / "tools/share"))
        spoiled = [] if spoil is None else ["--spoil", spoil]
        self.process = subprocess.Popen([share, str(self.lines), "--frames", str(self.frames), *spoiled, program(), "live", *words],
                                        stderr=subprocess.PIPE, text=True)
        self.ready = self.process.stderr.readline()

    def __enter__(self) -> Shared:
        return self

    def __exit__(self, *_: object) -> None:
        self.process.terminate()
        self.process.wait(20)
        self.process.stderr.close()


class Scripted:
    """A target of one connection that says what a script has, whatever comes, and then closes."""

    def __init__(self, *parts: bytes):
        self.server = socket.create_server(("127.0.0.1", 0))
        self.port, self.parts, self.came = self.server.getsockname()[1], parts, b""
        self.thread = threading.Thread(target=self.serve, daemon=True)
        self.thread.start()

    def serve(self) -> None:
        link, _ = self.server.accept()
        with link:
            for part in self.parts:
                self.came += link.recv(65536)
                link.sendall(part)

    def __enter__(self) -> Scripted:
        return self

    def __exit__(self, *_: object) -> None:
        self.thread.join(5)
        self.server.close()


class Flood:
    """A target that sends the same, as fast as it goes, until the other side leaves."""

    def __init__(self, flooding: bytes):
        self.server = socket.create_server(("127.0.0.1", 0))
        self.port, self.flooding = self.server.getsockname()[1], flooding
        self.thread = threading.Thread(target=self.serve, daemon=True)
        self.thread.start()

    def serve(self) -> None:
        link, _ = self.server.accept()
        with link:
            try:
                while True:
                    link.sendall(self.flooding)
            except OSError:
                return

    def __enter__(self) -> Flood:
        return self

    def __exit__(self, *_: object) -> None:
        self.thread.join(5)
        self.server.close()
