"""A headless Firefox, by WebDriver BiDi (W3C) and nothing but Python: Debian's firefox-esr. Debian has no driver for it, and BiDi asks for none."""
from __future__ import annotations

import base64
import json
import os
import shutil
import socket
import struct
import subprocess
import tempfile
import time
from pathlib import Path
from typing import Any

from browser import Refused

PORT = int(os.environ.get("FIREFOX_PORT", "9723"))
LONGEST = 600
PREFERENCES = {"browser.shell.checkDefaultBrowser": False, "browser.startup.page": 0, "datareporting.policy.dataSubmissionEnabled": False, "app.update.auto": False,
               "browser.download.alwaysOpenPanel": False, "dom.disable_beforeunload": True, "accessibility.tabfocus": 7}


class Socket:
    """Texts over a WebSocket (RFC 6455), as a client."""

    def __init__(self, port: int, path: str):
        self.own = socket.create_connection(("127.0.0.1", port), timeout=LONGEST)
        key = base64.b64encode(os.urandom(16)).decode()
        self.own.sendall(f"GET {path} HTTP/1.1\r\nHost: 127.0.0.1:{port}\r\nUpgrade: websocket\r\nConnection: Upgrade\r\nSec-WebSocket-Key: {key}\r\nSec-WebSocket-Version: 13\r\n\r\n".encode())
        self.read = self.own.makefile("rb")
        if b" 101 " not in self.read.readline():
            raise OSError("no WebSocket")
        while self.read.readline().strip():
            pass

    def send(self, text: str, kind: int = 1) -> None:
        content, mask = text.encode(), os.urandom(4)
        head = bytes([0x80 | kind]) + (bytes([0x80 | len(content)]) if len(content) < 126 else b"\xfe" + struct.pack(">H", len(content)) if len(content) < 65536
                                       else b"\xff" + struct.pack(">Q", len(content)))
        repeated = (mask * (len(content) // 4 + 1))[:len(content)]
        masked = (int.from_bytes(content, "big") ^ int.from_bytes(repeated, "big")).to_bytes(len(content), "big")
        self.own.sendall(head + mask + masked)

    def take(self) -> str:
        """The next text, of one frame or several."""
        whole = b""
        while True:
            head = self.read.read(2)
            if len(head) < 2:
                raise Refused("firefox-esr ended")
            first, second = head
            length = second & 0x7F
            if length > 125:
                length = int.from_bytes(self.read.read(2 if length == 126 else 8), "big")
            content = self.read.read(length)
            if first & 0x0F == 9:
                self.send(content.decode(), 10)
            elif first & 0x0F in (0, 1):
                whole += content
                if first & 0x80:
                    return whole.decode()

    def close(self) -> None:
        self.own.close()


class Firefox:
    """A window of Firefox, with the calls of browser.Browser."""

    NUMBERS_PAGES = False

    def __init__(self, page: Path, width: int = 1440):
        self.profile = tempfile.mkdtemp(prefix="page-test-")
        lines = (f"user_pref({json.dumps(name)}, {json.dumps(value)});\n" for name, value in PREFERENCES.items())
        (Path(self.profile) / "user.js").write_text("".join(lines))
        words = ["firefox-esr", "--headless", "--no-remote", "--profile", self.profile, f"--remote-debugging-port={PORT}"]
        self.run_ = subprocess.Popen(words, stdout=subprocess.DEVNULL, stderr=subprocess.DEVNULL, env={**os.environ, "HOME": self.profile})
        self.own, self.count, self.said = "", 0, []
        try:
            self.socket = self.joined()
            accept = {"alwaysMatch": {"unhandledPromptBehavior": {"default": "accept", "beforeUnload": "accept"}}}
            self.ask("session.new", capabilities=accept)
            # The first window of a headless Firefox never has the focus; one that is made has it.
            self.window = self.ask("browsingContext.create", type="window")["context"]
            self.ask("session.subscribe", events=["log.entryAdded"])
            self.resize(width, 1000)
            self.open(page)
        except BaseException:
            self.close()
            raise

    def joined(self) -> Socket:
        for _ in range(1500):
            try:
                return Socket(PORT, "/session")
            except OSError:
                time.sleep(0.2)
        raise Refused("firefox-esr does not answer")

    def __enter__(self) -> Firefox:
        return self

    def __exit__(self, *_: object) -> None:
        self.close()

    def close(self) -> None:
        self.run_.terminate()
        self.run_.wait()
        shutil.rmtree(self.profile, ignore_errors=True)

    def ask(self, what: str, **given: Any) -> Any:
        """What a command of BiDi answers. What the console has meanwhile is kept."""
        self.count += 1
        self.socket.send(json.dumps({"id": self.count, "method": what, "params": given}))
        while True:
            came = json.loads(self.socket.take())
            if came.get("method") == "log.entryAdded" and came["params"]["level"] in ("error", "warn"):
                self.said.append(str(came["params"]["text"]))
            if came.get("id") != self.count:
                continue
            if came["type"] == "error":
                raise Refused(f"{what}: {came['error']}: {came['message'][:600]}")
            return came["result"]

    def function(self, code: str, *given: Any) -> Any:
        """What a function answers, which may be a promise, over values as JSON."""
        came = self.ask("script.callFunction", functionDeclaration=code, awaitPromise=True, target={"context": self.window}, arguments=[{"type": "string", "value": json.dumps(given)}])
        if came["type"] == "exception":
            raise Refused(came["exceptionDetails"]["text"])
        return came["result"]

    def open(self, page: Path, fragment: str = "") -> None:
        self.ask("browsingContext.navigate", context=self.window, url=page.resolve().as_uri() + fragment, wait="complete")

    def run(self, code: str, *given: Any) -> Any:
        text = self.function(f"function (text) {{ return JSON.stringify((function () {{\n{code}\n}}).apply(null, JSON.parse(text)) ?? null); }}", *given)
        return json.loads(text["value"])

    def later(self, code: str, *given: Any) -> Any:
        text = self.function("function (text) { return new Promise((resolve) => { (function () { const done = arguments[arguments.length - 1];\n" + code
                             + "\n}).apply(null, [...JSON.parse(text), (value) => resolve(JSON.stringify(value ?? null))]); }); }", *given)
        return json.loads(text["value"])

    def element(self, selector: str) -> dict[str, str]:
        return {"sharedId": self.function("function (text) { return document.querySelector(JSON.parse(text)[0]); }", selector)["sharedId"]}

    def type(self, selector: str, text: str) -> None:
        if self.run("return document.querySelector(arguments[0]).type === 'file'", selector):
            self.ask("input.setFiles", context=self.window, element=self.element(selector), files=text.split("\n"))
            return
        self.run("const e = document.querySelector(arguments[0]); if (document.activeElement !== e) { e.focus(); e.setSelectionRange?.(e.value.length, e.value.length); }", selector)
        self.key(text)

    def click(self, selector: str) -> None:
        self.run("document.querySelector(arguments[0]).scrollIntoView({ block: 'center' })", selector)
        actions = [{"type": "pointerMove", "x": 0, "y": 0, "origin": {"type": "element", "element": self.element(selector)}}, {"type": "pointerDown", "button": 0}, {"type": "pointerUp", "button": 0}]
        self.ask("input.performActions", context=self.window, actions=[{"type": "pointer", "id": "mouse", "actions": actions}])

    def key(self, text: str) -> None:
        actions = [{"type": kind, "value": letter} for letter in text for kind in ("keyDown", "keyUp")]
        self.ask("input.performActions", context=self.window, actions=[{"type": "key", "id": "keys", "actions": actions}])

    def call(self, _method: str, path: str, body: Any = None) -> Any:
        """Of WebDriver's calls only that of keys."""
        if not path.endswith("/actions"):
            raise Refused(path)
        return self.ask("input.performActions", context=self.window, actions=body["actions"])

    def chrome(self, command: str, given: dict[str, Any]) -> Any:
        """Of Chromium's own commands those that BiDi has too; a colour scheme it has not."""
        if command == "Browser.setDownloadBehavior":
            return self.ask("browser.setDownloadBehavior", downloadBehavior={"type": "allowed", "destinationFolder": given["downloadPath"]})
        return None

    def resize(self, width: int, height: int) -> None:
        self.ask("browsingContext.setViewport", context=self.window, viewport={"width": width, "height": height}, devicePixelRatio=1.0)

    def picture(self, path: Path) -> None:
        path.write_bytes(base64.b64decode(self.ask("browsingContext.captureScreenshot", context=self.window)["data"]))

    def printed(self, path: Path, width: float = 21.0, height: float = 29.7) -> bytes:
        content = base64.b64decode(self.ask("browsingContext.print", context=self.window, background=True, page={"width": width, "height": height})["data"])
        path.write_bytes(content)
        return content

    def faults(self) -> list[str]:
        said, self.said = self.said, []
        return said
