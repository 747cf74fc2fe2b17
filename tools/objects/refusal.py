"""Why an object can be no program."""
from __future__ import annotations


class Refusal(Exception):
    """What stands there that can be no program, and what to write instead; at a slot of the function, where it has one."""

    def __init__(self, what: str, instead: str, slot: int | None = None):
        super().__init__(f"{what}; {instead}")
        self.what, self.instead, self.slot = what, instead, slot
