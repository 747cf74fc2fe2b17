"""Decimal numbers that somebody wrote: any number of zeros in front, and then no more digits than the greatest number has."""
from __future__ import annotations

from typing import Optional, Union


def decimal(text: Union[str, bytes], most: int) -> Optional[int]:
    """The number that a text is, if it is one of at most `most`."""
    if not (text.isascii() and text.isdigit()):
        return None
    zero = "0" if isinstance(text, str) else b"0"
    digits = text.lstrip(zero) or zero
    return int(digits) if len(digits) <= len(str(most)) and int(digits) <= most else None
