"""A headless Chromium, by WebDriver (W3C) and nothing but Python: Debian's chromium and chromium-driver."""
from __future__ import annotations

import base64
import json
import os
import shutil
import subprocess
import tempfile
import time
import urllib.error
import urllib.request
from pathlib import Path
from typing import Any

# The port of chromedriver on this machine; DRIVER_PORT says another one, for two runs at once.
PORT = int(os.environ.get("DRIVER_PORT", "9713"))
# How long a script may take, in milliseconds.
LONGEST = 600_000
# The name of an element in what WebDriver answers.
ELEMENT = "element-6066-11e4-a52e-4f735466cecf"


class Refused(Exception):
    """What WebDriver refused, and why."""


class Browser:
    """A window of a browser: `with Browser(page) as browser`."""

    # Whether the number of a page is on paper by the margin boxes of the style.
    NUMBERS_PAGES = True

    def __init__(self, page: Path, dark: bool = False, width: int = 1440):
        self.profile = tempfile.mkdtemp(prefix="page-test-")
        self.driver = subprocess.Popen(["chromedriver", f"--port={PORT}"], stdout=subprocess.DEVNULL, stderr=subprocess.DEVNULL)
        self.own = ""
        try:
            self.begin(width, dark)
            self.open(page)
        except BaseException:
            self.close()
            raise

    def __enter__(self) -> Browser:
        return self

    def __exit__(self, *_: object) -> None:
        self.close()

    def begin(self, width: int, dark: bool) -> None:
        for _ in range(100):
            try:
                self.call("GET", "/status")
                break
            except OSError:
                time.sleep(0.2)
        options = {"args": ["--headless=new", "--no-sandbox", "--disable-gpu", f"--user-data-dir={self.profile}", "--hide-scrollbars",
                            f"--window-size={width},1000"]}
        wanted = {"browserName": "chrome", "goog:loggingPrefs": {"browser": "ALL"}, "goog:chromeOptions": options}
        self.own = "/session/" + self.call("POST", "/session", {"capabilities": {"alwaysMatch": wanted}})["sessionId"]
        self.call("POST", self.own + "/timeouts", {"script": LONGEST, "pageLoad": LONGEST})
        self.chrome("Emulation.setEmulatedMedia", {"features": [{"name": "prefers-color-scheme", "value": "dark" if dark else "light"}]})

    def close(self) -> None:
        if self.own:
            try:
                self.call("DELETE", self.own)
            except (OSError, Refused):
                pass
        self.driver.terminate()
        self.driver.wait()
        shutil.rmtree(self.profile, ignore_errors=True)

    def call(self, method: str, path: str, body: Any = None) -> Any:
        data = None if body is None else json.dumps(body).encode()
        request = urllib.request.Request(f"http://127.0.0.1:{PORT}{path}", data, {"Content-Type": "application/json"}, method=method)
        try:
            with urllib.request.urlopen(request, timeout=LONGEST / 1000 + 60) as reply:
                return json.load(reply)["value"]
        except urllib.error.HTTPError as refused:
            raise Refused(f"{method} {path}: {refused.read().decode(errors='replace')[:600]}") from None

    def chrome(self, command: str, given: dict[str, Any]) -> Any:
        """A command of Chromium's own, for what WebDriver has no word for."""
        return self.call("POST", self.own + "/goog/cdp/execute", {"cmd": command, "params": given})

    def open(self, page: Path, fragment: str = "") -> None:
        self.call("POST", self.own + "/url", {"url": page.resolve().as_uri() + fragment})

    def run(self, code: str, *given: Any) -> Any:
        """What a script answers."""
        return self.call("POST", self.own + "/execute/sync", {"script": code, "args": list(given)})

    def later(self, code: str, *given: Any) -> Any:
        """What a script hands to `done`."""
        code = "const done = arguments[arguments.length - 1];\n" + code
        return self.call("POST", self.own + "/execute/async", {"script": code, "args": list(given)})

    def find(self, selector: str) -> str:
        return self.call("POST", self.own + "/element", {"using": "css selector", "value": selector})[ELEMENT]

    def type(self, selector: str, text: str) -> None:
        """Types into the element, by keys."""
        self.call("POST", f"{self.own}/element/{self.find(selector)}/value", {"text": text})

    def click(self, selector: str) -> None:
        self.call("POST", f"{self.own}/element/{self.find(selector)}/click", {})

    def key(self, text: str) -> None:
        """Types to whatever has the focus."""
        actions = [{"type": kind, "value": letter} for letter in text for kind in ("keyDown", "keyUp")]
        self.call("POST", self.own + "/actions", {"actions": [{"type": "key", "id": "keys", "actions": actions}]})

    def resize(self, width: int, height: int) -> None:
        """The window's inside, as a phone or a desk has it."""
        self.chrome("Emulation.setDeviceMetricsOverride", {"width": width, "height": height, "deviceScaleFactor": 1, "mobile": False})

    def picture(self, path: Path) -> None:
        path.write_bytes(base64.b64decode(self.call("GET", self.own + "/screenshot")))

    def printed(self, path: Path, width: float = 21.0, height: float = 29.7) -> bytes:
        """The page on paper, as a PDF, of so many centimetres."""
        given = {"printBackground": True, "preferCSSPageSize": False, "paperWidth": width / 2.54, "paperHeight": height / 2.54}
        content = base64.b64decode(self.chrome("Page.printToPDF", given)["data"])
        path.write_bytes(content)
        return content

    def faults(self) -> list[str]:
        """What the console has since it was asked last, of warnings and worse."""
        return [line["message"] for line in self.call("POST", self.own + "/se/log", {"type": "browser"}) if line["level"] in ("SEVERE", "WARNING")]
