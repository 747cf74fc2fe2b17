"""What the module does as a program: `python -m sandbarstove journal FILE --json`."""
from __future__ import annotations

import argparse
import csv
import json
import sys

from .journals import JournalFile, journal_file

_COLUMNS = ["time", "run", "bank", "port", "number", "generation", "verdict", "status", "packet", "end", "damaged"]


def _parser() -> argparse.ArgumentParser:
    parser = argparse.ArgumentParser(
        prog="python -m sandbarstove", description="An RMAP target for benches: what is done here with files of its journal.",
        epilog="In a program of your own: from sandbarstove import Node, Lines, Frames, command, reply, load, journal_file. "
               "help(sandbarstove) has all of it, docs/LIVE.md and docs/EMBEDDING.md its use.")
    words = parser.add_subparsers(title="words", required=True, metavar="WORD")
    journal = words.add_parser("journal", help="the entries of a file of tools/share --journal, for a program that evaluates them")
    journal.add_argument("file", metavar="FILE", help="the file of the bridge")
    form = journal.add_mutually_exclusive_group(required=True)
    form.add_argument("--json", action="store_true", help="a list of objects; packets in hexadecimal digits, times in UTC")
    form.add_argument("--csv", action="store_true", help="a line an entry, with the names of the columns in the first")
    return parser


def _print(found: JournalFile, is_json: bool) -> None:
    if is_json:
        json.dump([row.as_dict() for row in found], sys.stdout, indent=1)
        print()
        return
    writer = csv.DictWriter(sys.stdout, _COLUMNS, restval="", extrasaction="ignore")
    writer.writeheader()
    writer.writerows(row.as_dict() for row in found)


def main() -> int:
    given = _parser().parse_args()
    try:
        found = journal_file(given.file)
    except OSError as error:
        print(f"cannot read {given.file}: {error.strerror}", file=sys.stderr)
        return 1
    _print(found, given.json)
    for number, text in found.broken:
        print(f"line {number} is no line of a journal file: {text[:80]}", file=sys.stderr)
    return 1 if found.broken else 0


if __name__ == "__main__":
    sys.exit(main())
