"""The bridge: its files, its node, its ports, and how it begins and ends."""
from __future__ import annotations

import asyncio
import signal
import time
from typing import Any

from .doors import Doors
from .files import LineFile
from .journal import Journal
from .log import Log
from .node import Node
from .telling import Misuse, place, tell, utc
from .words import Words, inputs_of, sum_of, version_of

# Seconds between two syncs of a file, and trials to write what waits; and seconds that clients have at the end for what they are owed.
EACH, LAST = 1.0, 0.5


class Bridge:
    """One node for several clients."""

    def __init__(self, words: Words):
        self.words, self.began = words, time.time()
        inputs = inputs_of(words.program)
        files = {name: LineFile(name, inputs) for name in dict.fromkeys((words.journal, words.log)) if name}
        if words.journal and words.journal == words.log:
            raise Misuse(f"{words.log}: --journal and --log name one file")
        self.files = list(files.values())
        self.journal = Journal(files.get(words.journal))
        self.log = Log(files.get(words.log), words.verbose)
        self.version, self.sum = version_of(words.program[0]), sum_of(words.program)
        # Why it ends: nothing if a signal ended it.
        self.over: asyncio.Future[str] = asyncio.get_running_loop().create_future()
        self.node = Node(words.program, self.journal, self.log, words.patience, self.end)
        self.doors = Doors(self)

    def end(self, why: str = "") -> None:
        if not self.over.done():
            self.over.set_result(why)

    def catch(self) -> None:
        """SIGTERM and SIGINT end it. SIGHUP opens its files again, and ends it if it has none, except if `nohup` ignores it."""
        loop = asyncio.get_running_loop()
        for name in (signal.SIGTERM, signal.SIGINT):
            loop.add_signal_handler(name, self.end)
        if self.files:
            loop.add_signal_handler(signal.SIGHUP, self.open_again)
        elif signal.getsignal(signal.SIGHUP) != signal.SIG_IGN:
            loop.add_signal_handler(signal.SIGHUP, self.end)

    def open_again(self) -> None:
        for file in self.files:
            file.open_again()

    def status(self) -> dict[str, Any]:
        """What a client gets for `status`."""
        waits = self.node.since and asyncio.get_running_loop().time() - self.node.since
        file = self.journal.file
        return {"clients": len(self.doors.clients), "packets": self.node.packets, "entries": self.journal.count,
                "unwritten": len(file.waiting) if file else 0, "lost": file.lost if file else 0,
                "since": utc(self.began), "unanswered": round(waits or 0.0, 3), "program": " ".join(self.words.program),
                "version": self.version, "node": self.sum, "events": dict(self.log.counts)}

    async def tend(self) -> None:
        """Has the files written and synced, each second."""
        while True:
            await asyncio.sleep(EACH)
            for file in self.files:
                file.flush()
                file.sync()

    async def run(self) -> int:
        """Begins, serves until a signal or the node ends it, and ends. The exit status."""
        self.catch()
        await self.node.start()
        attending = [asyncio.create_task(task) for task in (self.node.attend(), self.tend())]
        try:
            if await self.greet():
                attending.append(asyncio.create_task(self.node.guard()))
                self.doors.listen()
                self.say_ready()
            return await self.finish(await self.over)
        finally:
            self.node.kill()

    async def greet(self) -> bool:
        """Asks the node what it is; whether it answered, and nothing has ended the bridge meanwhile."""
        ports = sorted(set(self.words.frames.values()) - {0})
        greeting = asyncio.create_task(self.node.greet(ports))
        await asyncio.wait([greeting, self.over], timeout=self.words.patience, return_when=asyncio.FIRST_COMPLETED)
        if not greeting.done():
            self.end(f"the program answers no line in {self.words.patience} seconds")
            return False
        if not greeting.result():
            return False
        self.journal.begin(self.version, self.sum)
        self.log.note("begin", self.version, self.sum)
        return not self.over.done()

    def say_ready(self) -> None:
        places = [f"lines at {place(self.words.bind, self.words.port)}"]
        places += [f"frames for port {at} at {place(self.words.bind, port)}" for port, at in self.words.frames.items()]
        tell(f"ready: {', '.join(places)}")

    async def finish(self, why: str) -> int:
        """Takes no more, has the node hand its journal out and end, and gives the clients what they are owed. The exit status."""
        self.doors.close()
        self.node.closing = True
        self.doors.end(self.node.watchers)
        if not why:
            why = await self.close_node()
        await self.doors.leave(LAST)
        self.log.note("end")
        for file in self.files:
            file.end()
        if why:
            await asyncio.wait([self.node.hearing], timeout=LAST)
            tell(why)
        return 1 if why or any(file.lost for file in self.files) else 0

    async def close_node(self) -> str:
        """Why the node did not end in time, or nothing."""
        try:
            await asyncio.wait_for(self.node.close(), self.words.patience)
        except asyncio.TimeoutError:
            return f"the node answers nothing for {self.words.patience} seconds: what its journal still has is lost"
        return ""
