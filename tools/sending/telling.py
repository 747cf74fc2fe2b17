"""What is told on standard error, and what ends the program."""
from __future__ import annotations

import os
import sys

NAME = "tools/send" if os.path.basename(sys.argv[0]) == "send" else os.path.basename(sys.argv[0])


class Stop(Exception):
    """Why nothing more is sent."""


def tell(text: object) -> None:
    print(f"{NAME}: {text}", file=sys.stderr, flush=True)
