"""Files to which whole lines are added, while others move them, fill the disk, or want to write them too."""
from __future__ import annotations

import collections
import errno
import fcntl
import os
import stat
import threading
from typing import Iterable, Union

from .telling import Misuse, print_error, tell

# So many bytes of lines wait at most in memory while a file does not take them.
MOST_WAITING = 16 * 2**20
# So many bytes are written at once.
BATCH = 65536


def is_same_file(path: str, other: Union[str, int]) -> bool:
    """Whether two names are those of one file that is there, by device and inode."""
    try:
        return os.path.samefile(path, other)
    except (OSError, ValueError):
        return False


def lacks_line_feed(path: str) -> bool:
    """Whether the last line of a file has no end. Of what cannot be read nobody knows it."""
    try:
        with open(path, "rb") as file:
            return file.seek(0, os.SEEK_END) > 0 and file.seek(-1, os.SEEK_END) >= 0 and file.read(1) != b"\n"
    except OSError:
        return False


def is_regular(handle: int) -> bool:
    return stat.S_ISREG(os.fstat(handle).st_mode)


class LineFile:
    """A file with one writer. A line is in it whole or not at all; lines that it does not take wait in memory, and are tried again."""

    def __init__(self, path: str, inputs: Iterable[str]):
        self.path, self.inputs = path, tuple(inputs)
        self.waiting: collections.deque[bytes] = collections.deque()
        self.size = 0
        # How many lines went to standard error, whether too many wait, and what was said last of the file.
        self.lost, self.is_over, self.state = 0, False, ""
        self.is_synced, self.syncing = True, None
        self.handle = self.opened()

    def opened(self) -> int:
        """A handle of the file, which nobody else writes. If its last line has no end, it gets one first."""
        for name in self.inputs:
            if is_same_file(self.path, name):
                raise Misuse(f"{self.path}: the node reads this file")
        try:
            handle = os.open(self.path, os.O_WRONLY | os.O_APPEND | os.O_CREAT, 0o666)
        except OSError as error:
            raise Misuse(f"{self.path}: {error.strerror}", 1) from None
        if is_regular(handle):
            try:
                fcntl.flock(handle, fcntl.LOCK_EX | fcntl.LOCK_NB)
            except OSError:
                os.close(handle)
                raise Misuse(f"{self.path}: another bridge writes this file", 1) from None
            if lacks_line_feed(self.path):
                self.waiting.appendleft(b"\n")
                self.size += 1
        return handle

    def open_again(self) -> None:
        """Opens the file anew by its name, as after it was renamed. If that fails, the old one stays."""
        try:
            if is_same_file(self.path, self.handle):
                return
            handle = self.opened()
        except (Misuse, OSError) as error:
            tell(f"{error}: the old file stays")
            return
        os.close(self.handle)
        self.handle = handle
        tell(f"{self.path}: opened again")
        self.flush()

    def add(self, lines: Iterable[bytes]) -> None:
        """Adds lines. If too many wait already, those that are more go to standard error."""
        for line in lines:
            if self.size + len(line) > MOST_WAITING:
                self.is_over = True
                self.change(f"{MOST_WAITING >> 20} MB wait in memory: what is more goes to standard error")
                self.lost += 1
                print_error(line)
            else:
                self.waiting.append(line)
                self.size += len(line)
        self.flush()

    def flush(self) -> None:
        """Writes what waits, as far as the file takes it."""
        while self.waiting:
            batch, size = [], 0
            for line in self.waiting:
                batch.append(line)
                size += len(line)
                if size >= BATCH:
                    break
            if self.put(batch) == 0:
                return
        self.is_over = False
        self.change("")

    def put(self, lines: list[bytes]) -> int:
        """Writes the first lines that wait: how many are in the file now. A part of one more is taken back."""
        try:
            done = os.write(self.handle, b"".join(lines))
        except OSError as error:
            self.refuse(error.errno)
            return 0
        self.is_synced = False
        whole = 0
        while whole < len(lines) and done >= len(lines[whole]):
            done -= len(lines[whole])
            self.size -= len(self.waiting.popleft())
            whole += 1
        if done:
            self.take_back(done)
        if whole == 0:
            self.refuse(errno.ENOSPC)
        return whole

    def refuse(self, why: int) -> None:
        if not self.is_over:
            self.change(f"{os.strerror(why)}: lines wait in memory, and are tried again")

    def take_back(self, part: int) -> None:
        """Takes the part of a line back that is at the end of the file; what is no file keeps it, and gets the rest later."""
        try:
            os.ftruncate(self.handle, os.fstat(self.handle).st_size - part)
        except OSError:
            self.waiting[0] = self.waiting[0][part:]
            self.size -= part

    def change(self, state: str) -> None:
        """Says what the state of the file is, once at each change."""
        if state != self.state:
            self.state = state
            tell(f"{self.path}: {state or 'all lines are written again'}")

    def sync(self) -> None:
        """Has what was written put on the disk, in a thread: a disk may take its time."""
        if self.is_synced or (self.syncing and self.syncing.is_alive()) or not is_regular(self.handle):
            return
        self.is_synced = True
        self.syncing = threading.Thread(target=self.put_on_disk, args=(os.dup(self.handle),), daemon=True)
        self.syncing.start()

    def put_on_disk(self, handle: int) -> None:
        try:
            os.fsync(handle)
        except OSError as error:
            tell(f"{self.path}: {error.strerror}: lines may not be on the disk")
        finally:
            os.close(handle)

    def end(self) -> None:
        """Writes what waits; what is left goes to standard error, and what was written on the disk, within a second."""
        self.flush()
        self.lost += len(self.waiting)
        print_error(b"".join(self.waiting))
        self.waiting.clear()
        if self.syncing:
            self.syncing.join(1)
        self.sync()
        if self.syncing:
            self.syncing.join(1)
