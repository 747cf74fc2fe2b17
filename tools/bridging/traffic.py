"""Many packets, many clients, and ends at any moment: each entry once, bounded memory, and how fast. With --long in full length."""
from __future__ import annotations

import os
import random
import select
import signal
import socket
import time

from .crowd import Crowd, number_of
from .kit import IS_LONG, Bridge, free_ports, has_entries, packets_in, told, until
from .table import folder, small_disk

# How much is done without --long and with it.
ENDS, CROWD, KILLS = (50, 500, 20) if IS_LONG else (5, 100, 4)
FLOODS, FLOOD = (500, 10 * 2**30) if IS_LONG else (100, 2**30)
PACKETS = 100_000 if IS_LONG else 10_000
ENTRIES = ("--entries",) if has_entries() else ()


def counted(*paths: str) -> list[int]:
    return [number_of(packet) for path in paths if os.path.exists(path) for packet in packets_in(path)]


def serve(crowd: Crowd, packets: int) -> None:
    """Waits until so many packets more were answered, or five seconds."""
    more = len(crowd.answered) + packets
    until(lambda: len(crowd.answered) >= more, 5)


def flood() -> None:
    """Clients that send no line feed make it grow to no more than 64 MB, and hold no end up."""
    bridge = Bridge("--clients", str(FLOODS))
    least = bridge.memory("VmRSS")
    clients = []
    for _ in range(FLOODS):
        client = socket.create_connection(("127.0.0.1", bridge.port))
        client.setblocking(False)
        clients.append(client)
    begun, sent, block = time.monotonic(), 0, bytes(2**18)
    while sent < FLOOD:
        _, ready, _ = select.select([], clients, [], 10)
        for client in ready:
            sent += client.send(block)
    took, most = time.monotonic() - begun, bridge.memory()
    told(f"{FLOODS} clients that send {FLOOD >> 20} MB without a line feed: memory stays under 64 MB", most < 64 * 1024,
         f"{least // 1024} to {most // 1024} MB, {sent / took / 2**20:.0f} MB a second")
    for client in clients:
        client.setblocking(True)
    begun = time.monotonic()
    status = bridge.end()
    took = time.monotonic() - begun
    told("and SIGTERM ends it within two seconds", status == 0 and took < 2, f"{took:.2f} s")


def ends() -> None:
    """Ends at random moments with many busy clients: each within two seconds, and each answered command in the file."""
    chance, port = random.Random(1), free_ports(1)[0]
    with folder() as room:
        path = os.path.join(room, "journal")
        crowd = Crowd(port, CROWD, 10**7)
        longest, statuses = 0.0, set()
        for _ in range(ENDS):
            bridge = Bridge("--journal", path, "--clients", str(CROWD), live=ENTRIES, port=port)
            serve(crowd, chance.randrange(200, 2000))
            begun = time.monotonic()
            statuses.add(bridge.end())
            longest = max(longest, time.monotonic() - begun)
        crowd.stop()
        here = counted(path)
        told(f"{ENDS} ends with {CROWD} busy clients, each within two seconds, with status 0", statuses == {0} and longest < 2, f"longest {longest:.2f} s")
        told("each answered command is in the file, and none twice", len(here) == len(set(here)) and crowd.answered <= set(here)
             <= crowd.answered | crowd.open, f"{len(crowd.answered)} answered, {len(here)} entries")


def kills() -> None:
    """The bridge is killed: with `live --entries` each answered command is in the file; without it those that the node held are lost."""
    chance, port = random.Random(2), free_ports(1)[0]
    for live in dict.fromkeys(((), ENTRIES)):
        with folder() as room:
            path = os.path.join(room, "journal")
            crowd = Crowd(port, 8, 10**7)
            for _ in range(KILLS):
                bridge = Bridge("--journal", path, live=live, port=port)
                serve(crowd, chance.randrange(50, 1500))
                bridge.end(signal.SIGKILL)
            crowd.stop()
            here = counted(path)
            lost = len(crowd.answered - set(here))
            told(f"{KILLS} kills {' '.join(live)}: whole lines, none twice" + (", no answered command lost" if live else ""),
                 len(here) == len(set(here)) and set(here) <= crowd.answered | crowd.open and (not live or lost == 0),
                 f"{len(crowd.answered)} answered, {len(here)} entries, {lost} lost")


def long_day() -> None:
    """Many packets of eight clients: a disk that fills and is emptied, a rename with SIGHUP, an end and a start again."""
    for live in dict.fromkeys(((), ENTRIES)):
        with small_disk(32768) as room:
            if not room:
                print("no root: the long day was not tried")
                return
            spend_day(room, live)


def spend_day(room: str, live: tuple[str, ...]) -> None:
    path, port = os.path.join(room, "journal"), free_ports(1)[0]
    bridge = Bridge("--journal", path, live=live, port=port)
    crowd = Crowd(port, 8, PACKETS)
    begun = time.monotonic()

    def reach(part: float) -> None:
        until(lambda: len(crowd.answered) >= PACKETS * part, 600)

    reach(0.2)
    fill(os.path.join(room, "ballast"))
    reach(0.4)
    is_full = any("No space left" in said for said in bridge.told)
    os.remove(os.path.join(room, "ballast"))
    reach(0.5)
    os.rename(path, path + ".1")
    bridge.process.send_signal(signal.SIGHUP)
    reach(0.6)
    statuses = [bridge.end()]
    bridge = Bridge("--journal", path, live=live, port=port)
    crowd.join(600)
    took = time.monotonic() - begun
    least, most = bridge.memory("VmRSS"), bridge.memory()
    statuses.append(bridge.end())
    here = counted(path + ".1", path)
    told(f"{PACKETS} packets of eight clients {' '.join(live)}: a full disk, SIGHUP and SIGTERM, each entry once",
         statuses == [0, 0] and is_full and len(here) == len(set(here)) and crowd.answered <= set(here) <= crowd.answered | crowd.open
         and len(crowd.answered) + len(crowd.open) == PACKETS,
         f"{len(crowd.answered)} answered, {len(here)} entries, {PACKETS / took:.0f} packets a second, {least // 1024} to {most // 1024} MB")


def fill(path: str) -> None:
    """Takes all the room that a file system has."""
    with open(path, "wb", buffering=0) as file:
        try:
            while file.write(bytes(65536)) == 65536:
                pass
        except OSError:
            pass


def rates() -> None:
    """Packets a second of clients that wait for each reply."""
    with folder() as room:
        for live in ((), ENTRIES) if ENTRIES else ((),):
            for clients in (1, 8):
                bridge = Bridge("--journal", os.path.join(room, "journal"), live=live)
                begun = time.monotonic()
                Crowd(bridge.port, clients, 8000).join()
                took, spent = time.monotonic() - begun, bridge.seconds()
                print(f"{clients} clients {' '.join(live)}: {8000 / took:.0f} packets a second, {spent / 8000 * 1e6:.0f} us of the bridge each,"
                      f" {bridge.memory() // 1024} MB", flush=True)
                bridge.end()


def all_trials() -> None:
    for trial in (flood, ends, kills, long_day, rates):
        trial()
