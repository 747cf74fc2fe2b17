"""What a test sees of the page's screen."""
from __future__ import annotations

import sys
from pathlib import Path

HERE = Path(__file__).resolve().parent
sys.path[:0] = [str(HERE.parent / "tests")]
from browser import Browser
from rmapctl import Differs

# A page that is not drawn after so many milliseconds stands still.
LONGEST = 120_000
WIDTHS = {"desk": (1440, 900), "tablet": (820, 1000), "phone": (360, 740)}
# A table whose last rule is asked at one port.
SOME_PORTS = ".version 2\nread 20 67 00 A0000000 A0000FFF - 0\nread 20 67 00 A0002000 A0002FFF - 0 port 1\n"


class Tally:
    """How many passed and failed, and what was left out."""

    def __init__(self) -> None:
        self.passed = self.failed = 0
        self.left: list[str] = []

    def note(self, what: str, holds: bool, more: str = "") -> None:
        self.passed += holds
        self.failed += not holds
        print(("ok      " if holds else "FAILED  ") + what + (f": {more}" if more and not holds else ""), flush=True)


def settled(browser: Browser) -> int:
    """Waits until the page has drawn what its texts ask for, and answers how many milliseconds that took."""
    took = browser.later("""const since = performance.now(), most = arguments[0]; let still = 0;
      (function look() { still = globalThis.TIMES && isStill() ? still + 1 : 0;
        const now = performance.now(); if (still > 6 || now - since > most) requestAnimationFrame(() => requestAnimationFrame(() => setTimeout(() => done(Math.round(now - since)), 0)));
        else setTimeout(look, 50); })();""", LONGEST)
    if took > LONGEST:
        raise Differs("the page stands still")
    return took


def begin(browser: Browser, new: str, old: str = "", lines: str = "", maps: str = "1", node: str = "") -> None:
    code = "begin({ texts: { new: arguments[0], old: arguments[1], lines: arguments[2], node: arguments[4] }, maps: arguments[3], both: arguments[1] !== '' })"
    browser.run(code, new, old, lines, maps, node)
    settled(browser)


def text_of(browser: Browser, selector: str) -> str:
    return browser.run("return document.querySelector(arguments[0]).textContent", selector)


def count_of(browser: Browser, selector: str) -> int:
    return browser.run("return document.querySelectorAll(arguments[0]).length", selector)


def choose_first(browser: Browser) -> None:
    browser.run("begin(ofExample(Object.values(EXAMPLES)[0]))")
    settled(browser)
