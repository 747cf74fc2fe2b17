#!/usr/bin/env python3
"""board.py PACKETS REPLIES FROM TO WORD..: the packet lines as frames over the UART of the board that WORD.. runs in QEMU.

The replies have to be those of REPLIES, in order, and nothing beside them. A line whose packet begins with a byte below 32 is left
out: in a frame that is a path. Then it prints how many replies came, and how much of the stack, which lies from FROM to TO and was
painted C5, was used."""

from __future__ import annotations

import socket
import subprocess
import sys
import tempfile
import threading
import time
from pathlib import Path

PAINT = 0xC5
# A read, of which the reply shows that nothing came between.
LAST = bytes.fromhex("FE014C0067000100A0000000000010C9")
LAST_REPLY = bytes.fromhex("67010C00FE000100000010")


def stop(text: str) -> None:
    """Prints what is wrong, and ends."""
    sys.exit(f"board: {text}")


def rows(packets: Path, replies: Path) -> tuple[list[bytes], list[bytes]]:
    """The frames of the packet lines, and the replies that are due."""
    frames, due = [], []
    for line, reply in zip(packets.read_text().splitlines(), replies.read_text().splitlines(), strict=True):
        _, text, end = line.split(" ")
        packet = bytes.fromhex(text)
        if packet[:1] < b"\x20":
            continue
        frames.append(sent(len(frames), packet, 1 if end == "EEP" else 0))
        words = reply.split(" ")
        if len(words) == 3 and words[2] == "EOP":
            due.append(bytes.fromhex(words[1]))
    return frames, due


def frame(packet: bytes, flag: int) -> bytes:
    """A packet as a frame."""
    return bytes([flag, 0]) + len(packet).to_bytes(10, "big") + packet


def sent(at: int, packet: bytes, flag: int) -> bytes:
    """A packet as it is sent: one of three in two pieces, with a path in front and a time code between them, one after a frame for a
    bridge, and one in one frame."""
    if at % 3 == 1:
        half = len(packet) // 2
        return frame(b"\x05" + packet[:half], 2) + frame(bytes(2), 0x30) + frame(packet[half:], flag)
    if at % 3 == 2:
        return frame(bytes(5), 0x40) + frame(packet, flag)
    return frame(packet, flag)


def replied(board: subprocess.Popen[bytes]) -> bytes:
    """The next reply of the board."""
    head = board.stdout.read(12)
    if len(head) < 12 or head[:2] != bytes(2):
        stop(f"no frame of a reply: {head.hex()}")
    return board.stdout.read(int.from_bytes(head[2:], "big"))


def used(monitor: str, low: int, high: int, room: str) -> int:
    """How much of the stack is no more painted, as QEMU's monitor says."""
    saved = Path(room) / "stack"
    with socket.socket(socket.AF_UNIX) as link:
        link.connect(monitor)
        link.sendall(f'pmemsave {low} {high - low} "{saved}"\n'.encode())
        until = time.monotonic() + 60
        while not saved.exists() or saved.stat().st_size < high - low:
            if time.monotonic() > until:
                stop("QEMU saves no memory")
            time.sleep(0.05)
    return len(saved.read_bytes().lstrip(bytes([PAINT])))


def talk(board: subprocess.Popen[bytes], packets: Path, replies: Path) -> int:
    """Sends all packets, and compares what comes: how many replies."""
    frames, due = rows(packets, replies)

    def send() -> None:
        try:
            board.stdin.write(b"".join(frames) + frame(LAST, 0))
            board.stdin.flush()
        except OSError:
            pass

    threading.Thread(target=send, daemon=True).start()
    for at, wanted in enumerate(due):
        came = replied(board)
        if came != wanted:
            stop(f"reply {at}: {came.hex()}, not {wanted.hex()}")
    if not replied(board).startswith(LAST_REPLY):
        stop("more replies than are due")
    return len(due)


def main(words: list[str]) -> None:
    """Does what the usage says."""
    packets, replies, low, high, *qemu = words
    with tempfile.TemporaryDirectory() as room:
        monitor = f"{room}/monitor"
        command = [*qemu, "-display", "none", "-serial", "stdio", "-monitor", f"unix:{monitor},server=on,wait=off"]
        with subprocess.Popen(command, stdin=subprocess.PIPE, stdout=subprocess.PIPE) as board:
            watch = threading.Timer(300, board.kill)
            watch.start()
            try:
                count = talk(board, Path(packets), Path(replies))
                stack = used(monitor, int(low, 16), int(high, 16), room)
            finally:
                watch.cancel()
                board.kill()
    print(f"{count} replies, stack {stack} of {int(high, 16) - int(low, 16)}")


if __name__ == "__main__":
    main(sys.argv[1:])
