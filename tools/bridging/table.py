"""What a bridge owes to who leaves it alone: files, disks, clients that send what they like, and what it says of all this."""
from __future__ import annotations

import json
import os
import re
import select
import shutil
import signal
import socket
import subprocess
import tempfile
import threading
import time
from contextlib import contextmanager
from pathlib import Path
from typing import Iterator

from .kit import (BEGIN, ENTRY, PROGRAM, READ, REPLY, SHARE, TIME, TOP, Bridge, Frames, Lines, crc, entries_of, free_ports, line,
                  packets_in, read, told, until)

PAGE = (TOP / "docs/LIVE.md").read_text(encoding="utf-8")


@contextmanager
def folder() -> Iterator[str]:
    with tempfile.TemporaryDirectory() as room:
        yield room


def done(*words: str) -> subprocess.CompletedProcess[str]:
    """A bridge that is to end by itself."""
    return subprocess.run([SHARE, *words], capture_output=True, text=True, stdin=subprocess.DEVNULL, timeout=30, check=False)


# --- The file


@contextmanager
def small_disk(size: int = 256) -> Iterator[str]:
    """A file system of so many kB."""
    with folder() as room:
        if subprocess.run(["mount", "-t", "tmpfs", "-o", f"size={size}k", "tmpfs", room], capture_output=True, check=False).returncode:
            yield ""
            return
        try:
            yield room
        finally:
            subprocess.run(["umount", "-l", room], check=False)


def full_disk() -> None:
    """A line is in the file whole or not at all; what waits is written when there is room, and what is left is told at the end."""
    for is_emptied in (True, False):
        with small_disk() as room:
            if not room:
                print("no root: a disk that is full was not tried")
                return
            fill_disk(room, is_emptied)


def fill_disk(room: str, is_emptied: bool) -> None:
    path, ballast = os.path.join(room, "journal"), os.path.join(room, "ballast")
    Path(ballast).write_bytes(bytes(224 * 1024))
    bridge = Bridge("--journal", path)
    client = Lines(bridge.port)
    for number in range(1500):
        client.ask(line(read(number)))
    client.ask("journal")
    waits = json.loads(Lines(bridge.port).ask("status"))["unwritten"]
    text = Path(path).read_bytes()
    told("on a full disk the file ends in a whole line, and `status` says how many wait", text.endswith(b"\n") and waits > 0, waits)
    if is_emptied:
        os.remove(ballast)
        until(lambda: any("written again" in said for said in bridge.told))
    status = bridge.end()
    here = [int(packet[10:14], 16) for packet in packets_in(path)]
    left = [int(found[5][10:14], 16) for found in map(ENTRY.fullmatch, map(str.rstrip, bridge.told)) if found]
    states = [said for said in bridge.told if path in said]
    if is_emptied:
        told("what waited is written when there is room, with status 0", (status, here, left, len(states)) == (0, list(range(1500)), [], 2),
             states[-1].strip())
    else:
        told("what is left at the end is told once, with status 1", (status, here + left, len(states)) == (1, list(range(1500)), 1), states[0].strip())


def half_a_line() -> None:
    """A file that ends without a line feed gets one at the beginning."""
    with folder() as room:
        path = os.path.join(room, "journal")
        Path(path).write_text("half a line", encoding="ascii")
        bridge = Bridge("--journal", path)
        Lines(bridge.port).ask(READ)
        bridge.end()
        lines = Path(path).read_text(encoding="ascii").splitlines()
        told("half a line gets its end", lines[0] == "half a line" and BEGIN.fullmatch(lines[1]) and ENTRY.fullmatch(lines[2]) and len(lines) == 3)


def two_bridges() -> None:
    """Two bridges with one file: the second ends, and names it."""
    with folder() as room:
        path = os.path.join(room, "journal")
        bridge = Bridge("--journal", path)
        for option in ("--journal", "--log"):
            ran = done(str(free_ports(1)[0]), option, path, PROGRAM, "live")
            told(f"a file that another bridge writes is refused: {option}", ran.returncode == 1 and f"{path}: another bridge writes this file" in ran.stderr)
        bridge.end(signal.SIGKILL)
        again = Bridge("--journal", path)
        told("not after that bridge was killed", again.is_ready() and again.end() == 0)


def hang_up() -> None:
    """SIGHUP opens the files again; if that fails the old ones stay; without a file it ends the bridge."""
    with folder() as room:
        path, log = os.path.join(room, "journal"), os.path.join(room, "log")
        bridge = Bridge("--journal", path, "--log", log)
        client = Lines(bridge.port)
        client.ask(line(read(1)))
        client.send("journal")
        client.line(), client.line()
        os.rename(path, path + ".1")
        client.ask(line(read(2)))
        client.send("journal")
        client.line(), client.line()
        bridge.process.send_signal(signal.SIGHUP)
        until(lambda: os.path.exists(path))
        client.ask(line(read(3)))
        client.send("journal")
        client.line(), client.line()
        numbers = [[packet[10:14] for packet in packets_in(name)] for name in (path + ".1", path)]
        told("after a rename and SIGHUP entries go to a new file", numbers == [["0001", "0002"], ["0003"]], numbers)
        os.rename(path, path + ".2")
        os.mkdir(path)
        bridge.process.send_signal(signal.SIGHUP)
        told("if that fails a line says so", until(lambda: any(f"{path}: Is a directory: the old file stays" in said for said in bridge.told)))
        client.ask(line(read(4)))
        told("and the old file stays", bridge.end() == 0 and [packet[10:14] for packet in packets_in(path + ".2")] == ["0003", "0004"])
    told("without a file SIGHUP ends it", Bridge().end(signal.SIGHUP) == 0)


def rotated() -> None:
    """The file of logrotate that docs/LIVE.md has."""
    if not shutil.which("logrotate"):
        print("no logrotate: its file was not tried")
        return
    with folder() as room:
        path = os.path.join(room, "journal.txt")
        bridge = Bridge("--journal", path)
        client = Lines(bridge.port)
        client.ask(line(read(1)))
        client.ask("journal"), client.line()
        rules = PAGE.split("```logrotate\n")[1].split("```")[0].replace("/var/lib/sandbarstove/journal.txt", path)
        rules = re.sub(r"systemctl reload .*", f"kill -HUP {bridge.process.pid}", rules)
        Path(room, "rules").write_text(rules, encoding="ascii")
        os.chmod(os.path.join(room, "rules"), 0o644)
        ran = subprocess.run(["logrotate", "-f", "-s", os.path.join(room, "state"), os.path.join(room, "rules")],
                             capture_output=True, text=True, check=False)
        until(lambda: any("opened again" in said for said in bridge.told))
        client.ask(line(read(2)))
        status = bridge.end()
        names = sorted(name for name in os.listdir(room) if name.startswith("journal"))
        numbers = [packet[10:14] for name in reversed(names) for packet in packets_in(os.path.join(room, name))]
        told("logrotate moves the file, and the bridge goes on in a new one", (ran.returncode, status, len(names), numbers) == (0, 0, 2, ["0001", "0002"]),
             ran.stderr.strip() or " ".join(names))


def own_image() -> None:
    """A file that the node reads is none for entries."""
    with folder() as room:
        image, node = os.path.join(room, "j.img"), os.path.join(room, "node.toml")
        subprocess.run([PROGRAM, "policy", "-", image], input="any * * * 00000000 FFFFFFFF - 0\n", text=True, check=True, capture_output=True)
        Path(node).write_text('program = "j.img"\n', encoding="ascii")
        os.link(image, os.path.join(room, "other"))
        before = Path(image).read_bytes()
        port = str(free_ports(1)[0])
        rows = [("--journal", image, "--image", image), ("--log", image, f"--image={image}"), ("--journal", os.path.join(room, "other"), "--image", image),
                ("--journal", image, "--node", node), ("--journal", node, f"--node={node}")]
        for option, file, *live in rows:
            ran = done(port, option, file, PROGRAM, "live", *live)
            told(f"refused: {option} {os.path.basename(file)} .. {' '.join(map(os.path.basename, live))}",
                 ran.returncode == 2 and f"{file}: the node reads this file" in ran.stderr and Path(image).read_bytes() == before, ran.stderr[:80].strip())


def began() -> None:
    """A line says where a node began, and which; what reads the file takes it."""
    with folder() as room:
        path = os.path.join(room, "journal.txt")
        for ports in (2, 2, 3):
            bridge = Bridge("--journal", path, ports=ports)
            Lines(bridge.port).ask(READ)
            bridge.end()
        lines = Path(path).read_text(encoding="ascii").splitlines()
        begins = [text.split()[2:] for text in lines if BEGIN.fullmatch(text)]
        told("each node has a line in the file, another node another sum", len(lines) == 6 and begins[0] == begins[1] != begins[2], begins)
        recipe = re.search(r"\n    (sed .* journal\.txt \| rmapctl show -)\n", PAGE)[1].replace("rmapctl", PROGRAM)
        ran = subprocess.run(recipe, shell=True, cwd=room, capture_output=True, text=True, check=False)
        told("the recipe of the page takes the file", ran.returncode == 0 and ran.stdout.count("command read") == 3, ran.stdout[-200:] if ran.returncode else "")


# --- The words


def empty_words() -> None:
    port = str(free_ports(1)[0])
    for option, text in (("--bind", "address"), ("--journal", "file"), ("--log", "file")):
        ran = done(port, option, "", PROGRAM, "live")
        told(f"{option} with nothing is a fault of the word", ran.returncode == 2 and f"nothing is no {text}" in ran.stderr)
    with folder() as room:
        path = os.path.join(room, "one")
        ran = done(port, "--journal", path, "--log", path, PROGRAM, "live")
        told("one file for both is refused", ran.returncode != 0 and path in ran.stderr, ran.stderr.split("\n")[0])


def addresses() -> None:
    """Addresses of IPv6, with brackets and without them."""
    for address in ("::1", "[::1]"):
        bridge = Bridge("--bind", address)
        told(f"--bind {address}", bridge.told[0].endswith(f" [::1]:{bridge.port}\n") and Lines(bridge.port, "::1").ask(READ) == REPLY, bridge.told[0].strip())
        bridge.end()
    ran = done(str(free_ports(1)[0]), "--bind", "[]", PROGRAM, "live")
    told("--bind [] is no address", ran.returncode == 2 and "nothing is no address" in ran.stderr)


def own_numbers() -> None:
    """A fault has the client's own number, also on standard error, and its text if the client wants it."""
    bridge = Bridge()
    first, second = Lines(bridge.port), Lines(bridge.port)
    came = [first.ask(READ), second.ask("foo"), first.ask("bar"), first.ask(READ, "0 FE"), second.ask("words", "0 FE01 eop")]
    came[3] = first.line()
    plain = came[:4] == [REPLY, "line 1 fault 1", "line 2 fault 1", "line 4 fault 3"]
    told("each client counts its own lines, and without `words` a fault is as it was", plain, came[:4])
    told("after `words` the answer says what the fault is", re.fullmatch(r"line 3 fault 3: \w.*", came[4]) is not None, came[4])
    told("a fault that was told before too", re.fullmatch(r"line 4 fault 1: \w.*", second.ask("foo")) is not None)
    peers = [f"127.0.0.1:{client.socket.getsockname()[1]}" for client in (second, first)]
    bridge.end()
    said = [text.split(": ", 1)[1] for text in bridge.told if "fault" in text]
    told("standard error has the client and its own number", [text.split(": ")[:2] for text in said]
         == [[peers[0], "line 1 fault 1"], [peers[1], "line 4 fault 3"]], said)


def words_alike() -> None:
    """The words of one line are read alike, whatever a terminal puts round them."""
    bridge = Bridge()
    for form in ("{}", " {}", "{} ", "{}\r", " {} \r"):
        client = Lines(bridge.port)
        client.send(form.format("words"))
        texts = [client.ask("foo"), client.ask(form.format("status"))[:1], client.ask(form.format("journal")), client.ask(form.format("cells"))]
        client.send(form.format("watch"))
        watched = client.ask(READ)
        told(f"words, status, journal, cells and watch as {form!r}", (": " in texts[0], texts[1:], watched)
             == (True, ["{", "journal 0 entries", "cells 0 maps"], f"> {READ}"), texts)
        client.send("journal")
        client.close()
        until(lambda: json.loads(Lines(bridge.port).ask("status"))["entries"] > 0)
        Lines(bridge.port).ask("journal")
    bridge.end()


# --- The clients


def at_most() -> None:
    """Who comes when there is no room waits, and the bridge does not spin."""
    for what, more in (("--clients 3", {}), ("no file descriptor", {"most_files": 22})):
        bridge = Bridge("--verbose", *(what.split() if what.startswith("--") else ()), **more)
        begun = bridge.seconds()
        clients = [Lines(bridge.port) for _ in range(20)]
        for client in clients:
            client.send(READ)
        time.sleep(2)
        ready, _, _ = select.select([client.socket for client in clients], [], [], 0)
        spent = bridge.seconds() - begun
        full = [text for text in bridge.told if " waits until a client leaves" in text]
        told(f"{what}: some are answered, the others wait, and one line says so", 3 <= len(ready) < 20 and len(full) == 1 and spent < 1,
             f"{len(ready)} of 20, {spent:.2f} s of a processor, {full and full[0].strip()}")
        answered = 0
        for client in clients:
            answered += client.line() == REPLY
            client.close()
        told(f"{what}: each is answered in the end", answered == 20, answered)
        told(f"{what}: it ends", bridge.end() == 0)


def long_journal(bridge: Bridge, count: int = 1000) -> Lines:
    """Fills the journal with entries of 8,400 digits, and gives the client."""
    client = Lines(bridge.port)
    head = bytes.fromhex("FE016C0067000100A0000000001000")
    packet = line(head + bytes([crc(head)]) + bytes(4097))
    for _ in range(count):
        client.ask(packet)
    return client


def deaf() -> None:
    """Who asks gets all, however slowly; a watcher that does not read is cut off, and nobody waits for either."""
    bridge = Bridge("--verbose")
    client = long_journal(bridge)
    other = Lines(bridge.port)
    client.send("journal", READ)
    begun = time.monotonic()
    for number in range(200):
        other.ask(line(read(number)))
    took = time.monotonic() - begun
    time.sleep(1)
    lines = [client.line() for _ in range(1002)]
    told("a client that reads late gets its journal of 8 MB whole, and then its next answer", (lines[1000], lines[1001]) == ("journal 1000 entries", REPLY)
         and all(ENTRY.fullmatch(f"2000-01-01T00:00:00.000Z {text}") for text in lines[:1000]), f"{sum(map(len, lines))} bytes")
    told("and nobody waits for it", took < 15, f"200 packets of another in {took:.2f} s")
    watcher = Lines(bridge.port)
    watcher.send("watch")
    time.sleep(0.2)
    longest, text = 0.0, line(read(7, 4000))
    for _ in range(1500):
        begun = time.monotonic()
        other.ask(text)
        longest = max(longest, time.monotonic() - begun)
    cut = [said for said in bridge.told if "is cut off" in said]
    slow = [said for said in bridge.told if " slow " in said]
    told("a deaf watcher is cut off with a line, and nobody waits for it", (len(cut), len(slow)) == (1, 1) and longest < 0.9, f"longest {longest:.3f} s")
    told("it ends", bridge.end() == 0)


def fast_watcher() -> None:
    """A watcher that reads is not cut off by a journal of 8 MB."""
    bridge = Bridge()
    client = long_journal(bridge)
    watcher = Lines(bridge.port)
    watcher.send("watch")
    time.sleep(0.2)
    seen: list[str] = []
    reader = threading.Thread(target=lambda: seen.extend(watcher.talk), daemon=True)
    reader.start()
    client.send("journal")
    lines = [client.line() for _ in range(1001)]
    bridge.end()
    reader.join(5)
    told("a watcher that reads sees a journal of 8 MB", [text.rstrip("\n") for text in seen[1:1002]] == lines, f"{len(seen)} lines")


def status() -> None:
    """One line says how the bridge is, also while the node does not answer."""
    bridge = Bridge("--patience", "5", ports=2)
    client, other = Lines(bridge.port), Lines(bridge.port)
    client.ask(READ)
    client.ask("0 FE01 EOP")
    found = json.loads(other.ask("status"))
    told("`status` counts", [found[name] for name in ("clients", "packets", "entries", "unwritten")] == [2, 2, 0, 0] and found["events"]["discard"] == 1
         and found["version"] in subprocess.run([PROGRAM, "--version"], capture_output=True, text=True, check=False).stdout
         and re.fullmatch(TIME, found["since"]) and found["program"] == f"{PROGRAM} live --ports 2", found)
    os.kill(bridge.node(), signal.SIGSTOP)
    client.send(READ)
    time.sleep(0.5)
    found = json.loads(other.ask("status"))
    told("also while the node does not answer", found["unanswered"] > 0.3, found["unanswered"])
    os.kill(bridge.node(), signal.SIGCONT)
    told("which goes on", client.line() == REPLY and bridge.end() == 0)
    if shutil.which("socat"):
        bridge = Bridge()
        recipe = re.search(r"\n    (echo status \| socat .*)\n", PAGE)[1].replace("localhost:10031", f"127.0.0.1:{bridge.port}")
        ran = subprocess.run(recipe, shell=True, capture_output=True, text=True, check=False)
        told("the page's check with socat", ran.returncode == 0 and json.loads(ran.stdout)["clients"] == 1, ran.stdout.strip()[:60])
        bridge.end()


def hangs() -> None:
    """A node that does not answer ends the bridge, and holds no end up."""
    bridge = Bridge("--patience", "1")
    node, client = bridge.node(), Lines(bridge.port)
    os.kill(node, signal.SIGSTOP)
    begun = time.monotonic()
    client.send(READ)
    code = bridge.process.wait(20)
    took = time.monotonic() - begun
    bridge.reader.join(5)
    told("a node that hangs ends the bridge in time", code == 1 and 0.9 < took < 2.5 and "answers nothing for 1 seconds" in bridge.told[-1], f"{took:.2f} s")
    bridge = Bridge("--patience", "2")
    node = bridge.node()
    os.kill(node, signal.SIGSTOP)
    begun = time.monotonic()
    code = bridge.end()
    took = time.monotonic() - begun
    told("SIGTERM ends it within its patience", code == 1 and took < 3 and "answers nothing for 2 seconds" in bridge.told[-1], f"{took:.2f} s")


def left_pieces() -> None:
    """A client that leaves after PART takes no packet of another with it."""
    with folder() as room:
        path = os.path.join(room, "journal")
        bridge = Bridge("--journal", path)
        digits = READ.split()[1]
        leaver, client = Lines(bridge.port), Lines(bridge.port)
        leaver.send(f"0 {digits} PART")
        leaver.ask("cells")
        leaver.close()
        until(lambda: json.loads(client.ask("status"))["clients"] == 1)
        told("after a client left its pieces, the next packet of another is whole", client.ask(READ) == REPLY)
        bridge.end()
        ends = [entry[0].split()[-1] for entry in entries_of(path)]
        told("its pieces end with EEP", ends == ["EEP", "EOP"], ends)


# --- The log


CONTROL, RESULT = 0x10000, 8


def logged() -> None:
    """What gets no answer leaves a trace, with the client's address."""
    with folder() as room:
        log, image = os.path.join(room, "log"), os.path.join(room, "deny.img")
        subprocess.run([PROGRAM, "policy", "-", image], input="read * * 00 00000000 FFFFFFFF - 0\n", text=True, check=True, capture_output=True)
        bridge = Bridge("--log", log, ports=2, frames=(1,))
        client, frames = Lines(bridge.port), Frames(bridge.frames[0])
        peers = [f"127.0.0.1:{each.socket.getsockname()[1]}" for each in (client, frames)]
        client.ask("0 FE014C0067000500A000000000000463 EOP")
        client.ask("set 00 A0000000 0102"), client.line()
        send_load(client, image, "1")
        send_load(client, "/dev/null", "1")
        send_load(client, image, "3")
        send_load(client, image, "0")
        frames.send(bytes.fromhex("FE02"))
        frames.socket.sendall(bytes(11) + b"\x09cut")
        frames.close()
        liner = Lines(bridge.frames[0])
        liner.send(READ)
        until(lambda: json.loads(client.ask("status"))["events"]["frame"] == 2)
        liner.close()
        client.close()
        bridge.end()
        lines = Path(log).read_text(encoding="ascii").splitlines()
        told("each line of the log has a time in UTC", all(re.match(rf"{TIME} \w+( |$)", text) for text in lines))
        events = [text.split(" ", 1)[1] for text in lines]
        wanted = [f"connect lines {peers[0]}", f"connect frames 1 {peers[1]}", f"discard 4 0 FE014C0067000500A000000000000463 {peers[0]}",
                  f"set 00 A0000000 2 {peers[0]}", f"load 0 1 1 {peers[0]}", f"load 0 fault 33 {peers[0]}", f"load 0 3 - {peers[0]}",
                  f"load 0 status 10 {peers[0]}", f"discard 1 1 FE02 {peers[1]}", f"frame 2 fault 2 {peers[1]}", f"leave {peers[1]}", f"leave {peers[0]}"]
        told("the log has who came, what was discarded, what was set and loaded, and frames that are cut", set(wanted) <= set(events),
             sorted(set(wanted) - set(events)) or len(events))
        told("a line at the port of frames too", sum(bool(re.fullmatch(r"frame 1 text 127\.0\.0\.1:\d+", text)) for text in events) == 1, "")
        told("it begins and ends", bool(re.fullmatch(r"begin \S+ [0-9a-f]{16}", events[0])) and events[-1] == "end")


def send_load(client: Lines, image: str, slot: str) -> None:
    packets = subprocess.run([PROGRAM, "packet", "load", image, "--slot", slot], capture_output=True, text=True, check=True).stdout
    for text in packets.splitlines():
        client.ask(text)


ROWS = (full_disk, half_a_line, two_bridges, hang_up, rotated, own_image, began, empty_words, addresses, own_numbers, words_alike, at_most, deaf,
        fast_watcher, status, hangs, left_pieces, logged)


def all_rows() -> None:
    for row in ROWS:
        row()
