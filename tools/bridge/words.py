"""The command line, and the files that the node reads."""
from __future__ import annotations

import hashlib
import os
import re
import shutil
import subprocess
from typing import Optional

from .damage import Spoiler
from .digits import decimal
from .telling import Misuse

VALUED = ("--frames", "--bind", "--journal", "--log", "--clients", "--patience", "--spoil", "--seed")
FLAGS = ("--verbose",)
# The strings of a node's file: some of them name files beside it.
STRINGS = re.compile(r'"([^"\n]*)"|\'([^\'\n]*)\'')


def number(text: str, least: int, most: int, what: str) -> int:
    value = decimal(text, most)
    if value is None or value < least:
        raise Misuse(f"{text[:80] or 'nothing'} is no {what}: {least} to {most}")
    return value


def address(text: str) -> str:
    """An address of this machine; one of IPv6 may be in brackets."""
    inner = text[1:-1] if text.startswith("[") and text.endswith("]") else text
    if not inner:
        raise Misuse("nothing is no address")
    return inner


def file_name(text: str) -> str:
    if not text:
        raise Misuse("nothing is no file")
    return text


class Words:
    """What the command line asks for."""

    def __init__(self, words: list[str]):
        self.port: Optional[int] = None
        self.frames: dict[int, int] = {}
        self.bind, self.journal, self.log, self.verbose = "127.0.0.1", None, None, False
        self.clients, self.patience = 256, 10
        spoil, self.seed = None, 0
        self.spoil: Optional[str] = spoil
        self.program = self.options(words)
        Spoiler(self.spoil, self.seed)
        self.check()

    def options(self, words: list[str]) -> list[str]:
        """Takes the options and PORT, and gives the words of the node."""
        while words and (self.port is None or words[0].startswith("--")):
            name = words[0]
            if not name.startswith("--"):
                self.port = number(name, 1, 65535, "port")
            elif name in FLAGS:
                self.verbose = True
            elif name not in VALUED or len(words) == 1:
                raise Misuse(f"{name}: " + ("a value is missing" if name in VALUED else "no such option"))
            else:
                self.option(name, words[1])
            words = words[2 if name in VALUED else 1:]
        return words

    def option(self, name: str, value: str) -> None:
        if name == "--frames":
            port, _, at = value.partition(":")
            port = number(port, 1, 65535, "port")
            if port in self.frames:
                raise Misuse(f"the port {port} is there twice")
            self.frames[port] = number(at, 0, 31, "port of a node") if ":" in value else 0
        elif name in ("--journal", "--log"):
            setattr(self, name[2:], file_name(value))
        elif name == "--bind":
            self.bind = address(value)
        elif name == "--clients":
            self.clients = number(value, 1, 65535, "number of clients")
        elif name == "--patience":
            self.patience = number(value, 1, 3600, "number of seconds")
        elif name == "--seed":
            self.seed = number(value, 0, 2**64 - 1, "seed")
        else:
            self.spoil = value

    def check(self) -> None:
        if self.port is None or not self.program:
            raise Misuse("PORT and PROGRAM are missing" if self.port is None else "PROGRAM is missing")
        if self.port in self.frames:
            raise Misuse(f"the port {self.port} is there twice")
        if "--frames" in self.program:
            raise Misuse(f"{self.program[0]} is asked in lines: --frames goes before it")


# --- The node's files


def named_by(node_file: str) -> list[str]:
    """The files that a node's file names: they are beside it."""
    try:
        with open(node_file, encoding="utf-8", errors="replace") as file:
            text = file.read()
    except OSError:
        return []
    names = [first or second for first, second in STRINGS.findall(text)]
    return [os.path.join(os.path.dirname(node_file), name) for name in names if name]


def files_of(program: list[str]) -> list[str]:
    """The files that the node reads: the words that name files, also after `=`, and what a node's file names."""
    found = [word for word in program[1:] for word in (word, word.partition("=")[2]) if word and not os.path.isdir(word)]
    node_files = [word.partition("=")[2] for word in program if word.startswith("--node=")]
    node_files += [after for word, after in zip(program, program[1:]) if word == "--node"]
    return found + [name for file in node_files for name in named_by(file)]


def sum_of(program: list[str]) -> str:
    """The first 16 digits of the SHA-256 of the node's words and of the bytes of the files that it reads."""
    digest = hashlib.sha256()
    for word in program[1:]:
        digest.update(os.fsencode(word) + b"\0")
    for name in files_of(program):
        if os.path.isfile(name):
            with open(name, "rb") as file:
                digest.update(hashlib.sha256(file.read()).digest())
    return digest.hexdigest()[:16]


def version_of(program: str) -> str:
    """The version that the program prints, or `unknown`."""
    try:
        ran = subprocess.run([program, "--version"], stdin=subprocess.DEVNULL, capture_output=True, timeout=5, check=False)
    except (OSError, subprocess.TimeoutExpired):
        return "unknown"
    found = re.search(rb"rmapctl (\S+)", ran.stdout + ran.stderr)
    return found[1].decode(errors="replace") if found else "unknown"


def inputs_of(program: list[str]) -> list[str]:
    """What no line may be added to: the files that the node reads, and the program itself."""
    path = shutil.which(program[0])
    return files_of(program) + ([path] if path else [])
