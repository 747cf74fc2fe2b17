"""`tools/send` before targets that answer by a script, and before what is no target."""
import os
import subprocess
import sys
import tempfile
import time
import unittest

import kit
from sandbarstove import command

SEND = os.environ.get("SANDBAR_SEND", str(kit.TOP / "tools/send"))
READ = command("read", 0xA0000000, 4, transaction=1)
REPLY = bytes.fromhex("67010C00FE000100000004450000000000")


def frame(packet: bytes, flag: int = 0) -> bytes:
    return bytes([flag, 0]) + len(packet).to_bytes(10, "big") + packet


def sent(port: int, *words: str, text: str = f"0 {READ.hex()} EOP\n") -> subprocess.CompletedProcess:
    return subprocess.run([sys.executable, SEND, f"localhost:{port}", "-", *words], input=text, capture_output=True, text=True,
                          check=False, timeout=30)


class AtAScript(unittest.TestCase):
    def test_a_reply(self):
        with kit.Scripted(frame(REPLY)) as target:
            done = sent(target.port)
        self.assertEqual((done.returncode, done.stdout, done.stderr), (0, f"0 {REPLY.hex().upper()} EOP\n", ""))

    def test_no_reply(self):
        with kit.Scripted(b"", b"") as target:
            done = sent(target.port, "--wait", "200")
        self.assertEqual((done.returncode, done.stdout), (3, "0 -\n"))
        self.assertIn("no reply within 200 ms to transaction 0001", done.stderr)

    def test_a_target_that_never_stops(self):
        for flooding in (frame(b"\x67\x01"), frame(REPLY[:5] + b"\0\2" + REPLY[7:]), frame(b"x" * 20, 0x31), frame(b"x", 2)):
            with kit.Flood(flooding * 50) as target:
                begun = time.monotonic()
                done = sent(target.port, "--wait", "500")
                self.assertLess(time.monotonic() - begun, 5)
            self.assertIn(done.returncode, (1, 3))

    def test_a_packet_that_is_no_reply_is_not_kept(self):
        with kit.Scripted(b"\0\0" + (2**40).to_bytes(10, "big")) as target:
            done = sent(target.port)
        self.assertEqual(done.returncode, 1)
        self.assertIn("a packet of 1099511627776 bytes", done.stderr)

    def test_compare(self):
        rows = [(f"0 {REPLY.hex()} EOP\n", 0), ("0 -\n", 1), ("0 discard 4\n", 1),
                (f"journal 0 0 0 0 0 {READ.hex()} EOP\n0 {REPLY.hex().upper()} EOP\njournal 1 entries\n", 0)]
        for text, status in rows:
            with kit.Scripted(frame(REPLY)) as target, self.subTest(text=text):
                done = self.compared(target.port, text, "--quiet", "1500")
                self.assertEqual((done.returncode, done.stdout), (status, f"0 {REPLY.hex().upper()} EOP\n"))
                self.assertEqual("is due" in done.stderr, status == 1)
        with kit.Scripted(b"", b"") as target:
            self.assertEqual(self.compared(target.port, "0 discard 4\n", "--wait", "100").returncode, 0)
        with kit.Scripted(b"", b"") as target:
            done = self.compared(target.port, f"0 {REPLY.hex()} EOP\n", "--wait", "100")
            self.assertEqual((done.returncode, done.stdout), (1, "0 -\n"))

    def test_what_cannot_be_compared(self):
        for text, words in (("", "0 packets, and 1 are sent"), ("0 zz EOP\n", "line 1: no line"), ("hello\n", "line 1: no line")):
            done = self.compared(kit.free_port(), text)
            self.assertEqual((done.returncode, done.stdout), (1, ""))
            self.assertIn(words, done.stderr)

    def test_a_reply_that_is_not_due(self):
        with kit.Scripted(frame(REPLY)) as target:
            done = self.compared(target.port, "0 discard 4\n", "--quiet", "500")
        self.assertEqual((done.returncode, done.stdout), (1, f"0 {REPLY.hex().upper()} EOP\n"))

    def compared(self, port: int, text: str, *words: str) -> subprocess.CompletedProcess:
        with tempfile.NamedTemporaryFile("w", suffix=".txt") as file:
            file.write(text)
            file.flush()
            return sent(port, "--compare", file.name, *words)


class Reported(unittest.TestCase):
    def run_suite(self, due: str, reply: bytes, **words: str) -> tuple[int, str]:
        with kit.Scripted(reply, b"") as target:
            return self.run_at(target.port, due, **words)

    def run_at(self, port: int, due: str, index: str = "1 read read of 4 bytes\n", profile: str = "") -> tuple[int, str]:
        with tempfile.TemporaryDirectory() as folder:
            names = {}
            for name, text in (("due", due), ("index", index), ("profile", profile)):
                names[name] = os.path.join(folder, name)
                with open(names[name], "w", encoding="ascii") as file:
                    file.write(text)
            report = os.path.join(folder, "report.md")
            done = sent(port, "--compare", names["due"], "--index", names["index"], "--report", report, "--wait", "1500", "--quiet", "500",
                        *(["--profile", names["profile"]] if profile else []))
            if not os.path.exists(report):
                return done.returncode, done.stderr
            with open(report, encoding="utf-8") as file:
                return done.returncode, file.read()

    def test_kinds(self):
        due, denied = f"0 {REPLY.hex()} EOP\n", bytes.fromhex("67010C0AFE0001000000006E00")
        rows = [(due, frame(REPLY), 0, "| read | 1 | 1 | 0 | 0 | 0 | 0 |"), (due, frame(denied), 1, "| read | 1 | 0 | 1 | 0 | 0 | 0 |"),
                (due, b"", 1, "| read | 1 | 0 | 0 | 0 | 1 | 0 |"), (due, frame(REPLY) * 2, 1, "| read | 1 | 0 | 1 | 0 | 0 | 0 |"),
                ("0 -\n", frame(REPLY), 1, "| read | 1 | 0 | 1 | 0 | 0 | 0 |")]
        for text, reply, status, row in rows:
            with self.subTest(row=row):
                came, report = self.run_suite(text, reply)
                self.assertEqual(came, status)
                self.assertIn(row, report)

    def test_a_choice(self):
        due, denied = f"0 {REPLY.hex()} EOP\n", bytes.fromhex("67010C0AFE0001000000006E00")
        came, report = self.run_suite(due, frame(denied), profile="word-width 8\n")
        self.assertEqual(came, 0)
        self.assertIn("- word-width: 1", report)

    def test_files_that_are_wrong(self):
        for words in ({"index": "2 read x\n"}, {"index": ""}, {"profile": "word-width 0\n"}, {"profile": "colour red\n"}):
            with self.subTest(words=words):
                came, told = self.run_at(kit.free_port(), "0 -\n", **words)
                self.assertEqual(came, 1)
                self.assertTrue("no line of" in told or "0 packets" in told or "no choice" in told, told)


class Misused(unittest.TestCase):
    def test_words(self):
        for place in ("a..b:1", "localhost:" + "9" * 5000, "x" * 100 + ":80", "localhost", "localhost:0", ":80", "localhost:65536"):
            done = subprocess.run([sys.executable, SEND, place, "-"], input="", capture_output=True, text=True, check=False)
            self.assertEqual((done.returncode, done.stdout), (2, ""))
            self.assertIn("is no HOST:PORT", done.stderr.splitlines()[0])

    def test_lines(self):
        rows = [("\ufeff0 00 EOP\n", "begins with a BOM"), ("0 00 EOP\r\n", "line 1: the line ends in \\r"), ("32 00 EOP\n", "line 1: no port"),
                ("0" * 5000 + "1 00 EOP\n2 00 EOP\n", "line 2 is of port 2, line 1 of port 1"), ("9" * 5000 + " 00 EOP\n", "line 1: no port"),
                ("0 0 EOP\n", "line 1: no bytes"), ("0 00\n", "line 1: no end marker")]
        for text, words in rows:
            with self.subTest(words=words):
                done = sent(kit.free_port(), text=text)
                self.assertEqual((done.returncode, done.stdout), (1, ""))
                self.assertIn(words, done.stderr)


if __name__ == "__main__":
    unittest.main()
