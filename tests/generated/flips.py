#!/usr/bin/env python3
"""Does link/live_upsets over a built rmapctl: bits of a talk's memory flip, and what comes then is compared (docs/TESTING.md, "Upsets").

Usage: tests/generated/flips.py --program FILE

Prints what differs. If the memory of a process cannot be written, that is printed, and nothing is compared. The last line is
`N passed, M failed`.
"""
from __future__ import annotations

import argparse
import re
import subprocess
import sys
from pathlib import Path

TOP = Path(__file__).resolve().parent.parent.parent


def main() -> int:
    """Does what the usage says."""
    parser = argparse.ArgumentParser(description=(__doc__ or "").split("\n\n")[0])
    parser.add_argument("--program", required=True, metavar="FILE")
    words = parser.parse_args()
    done = subprocess.run([sys.executable, TOP / "link/live_upsets", words.program], capture_output=True, text=True)
    held = re.search(r"(\d+) talks held", done.stdout)
    if done.returncode == 0 and held is None:
        print(done.stdout, end="")
    if done.returncode != 0:
        print(done.stdout + done.stderr, end="")
    print(f"{held[1] if held else 0} passed, {int(done.returncode != 0)} failed")
    return int(done.returncode != 0)


if __name__ == "__main__":
    sys.exit(main())
