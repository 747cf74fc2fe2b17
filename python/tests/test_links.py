"""Clients over TCP: before `tools/share` over a built program, and before targets that say what no target should."""
import json
import os
import subprocess
import sys
import tempfile
import time
import unittest
from itertools import islice
from pathlib import Path

import kit
from sandbarstove import (BadLine, Damaged, Discarded, Entry, Frames, Lines, LinkFault, LoadFault, YES, command, journal_file, load,
                          load_packets, reply)

READ = command("read", 0xA0000000, 4)

# As long as an image of two parts.
TWO_PARTS = bytes(4097)


@unittest.skipUnless(kit.program(), "there is no rmapctl")
class AtTheProgram(unittest.TestCase):
    def test_lines(self):
        with kit.Shared("--ports", "2", "--maps", "2,1p") as shared, Lines(port=shared.lines) as target:
            target.set(0xA0000000, b"\1\2\3\4")
            self.assertEqual(reply(target.ask(READ)).data, b"\1\2\3\4")
            self.assertIsNone(target.ask(command("write", 0xA0000000, b"z", reply=False), 1))
            self.assertEqual(reply(target.ask(command("write", 0xA0000000, b"z"), end="EEP")).status, 7)
            self.assertEqual(target.cells(), [[0, 0], [0]])
            self.assertEqual([(entry.port, entry.number, entry.status, entry.end) for entry in target.journal()],
                             [(0, 0, 0, "EOP"), (1, 0, 0, "EOP"), (0, 1, 7, "EEP")])
            self.assertEqual(target.journal(), [])
            with self.assertRaises(Discarded) as caught:
                target.ask(b"\xfe\1")
            self.assertEqual(caught.exception.reason, 1)
            with self.assertRaises(BadLine) as caught:
                target.ask(READ, 2)
            self.assertEqual(caught.exception.fault, 6)
            target.ask(READ)
            target.set(0xA0000000, b"\0")
            self.assertEqual(target.entries, [Entry(0, 2, 0, 0, 0, READ)])

    def test_banks(self):
        with tempfile.TemporaryDirectory() as folder:
            node = Path(folder, "node.toml")
            node.write_text("[[bank]]\nbase = 0xA0000000\nsize = 256\njournal = 2\n[[bank]]\nbase = 0\nsize = 16\njournal = 1\n")
            with kit.Shared("--node", str(node)) as shared, Lines(port=shared.lines) as target:
                other = command("write", 0, b"z", extended=1)
                for packet in (READ, other, READ, READ, other):
                    self.assertEqual(reply(target.ask(packet)).status, 0)
                target.set(0, b"\1\2", 1)
                self.assertEqual(reply(target.ask(command("read", 0, 2, extended=1))).data, b"\1\2")
                self.assertEqual([entry.number for entry in target.entries], [1])
                self.assertEqual([entry.number for entry in target.journal()], [1, 2, 2])
                self.assertEqual((target.journal(), target.cells()), ([], []))

    def test_loads(self):
        with kit.Shared("--ports", "2") as shared, Lines(port=shared.lines) as target, Frames(port=shared.frames) as frames:
            self.assertEqual(load(target, kit.DENY, 0, 1), [1])
            self.assertEqual(reply(frames.ask(READ)).status, 10)
            self.assertEqual(load(frames, YES, [0, 1]), [2, 3])
            self.assertEqual(reply(frames.ask(READ)).status, 0)
            self.assertRaises(LoadFault, load, target, b"no image", 1, 1)

    def test_load_of_which_a_reply_is_lost(self):
        for lost, sent in [("never:1", 1), ("never:2", 2)]:
            with kit.Shared("--ports", "2", spoil=lost) as shared, Lines(port=shared.lines) as watcher, \
                    Lines(port=shared.lines) as other, Frames(port=shared.frames, timeout=1) as target:
                lines = watcher.watch()
                with self.assertRaises(LoadFault) as caught:
                    load(target, TWO_PARTS, 0)
                self.assertEqual((caught.exception.reply, caught.exception.stands), (None, False))
                self.assertEqual([next(lines) for _ in range(2 * sent)][::2], [f"> 0 {packet.hex().upper()} EOP"
                                 for packet in islice(load_packets(TWO_PARTS, 0), sent)])
                self.assertEqual(load(other, YES, 0, 1), [1])

    def test_load_that_is_begun_anew(self):
        with kit.Shared(spoil="never:4") as shared, Frames(port=shared.frames, timeout=1) as target:
            for _ in range(3):
                self.assertEqual(reply(target.ask(READ)).status, 0)
            self.assertEqual(load(target, YES, 1, tries=2), [1])

    def test_tries(self):
        with kit.Shared() as shared, Frames(port=shared.frames) as target:
            self.assertRaises(ValueError, load, target, YES, 1, tries=0)

    def test_frames(self):
        with kit.Shared() as shared, Frames(port=shared.frames) as target:
            self.assertEqual(target.ask(command("write", 0xA0000010, b"\x11\x22", transaction=1)).hex(), "67012c00fe00017c")
            self.assertIsNone(target.ask(command("write", 0xA0000010, b"\x33", reply=False)))
            target.send(READ[:7], "PART")
            self.assertIsNone(target.receive(0.1))
            target.send(READ[7:])
            self.assertEqual(reply(target.receive()[0]).data, bytes(4))
            self.assertIsNone(target.ask(b"\xfe\1\x4c" + bytes(20), wait=0.1))
            self.assertRaises(ValueError, target.ask, READ, 1)

    def test_watch(self):
        with kit.Shared() as shared, Lines(port=shared.lines) as watcher, Lines(port=shared.lines) as target:
            lines = watcher.watch()
            time.sleep(0.5)
            target.ask(READ)
            self.assertEqual((next(lines), next(lines)[:12]), (f"> 0 {READ.hex()} EOP", "0 67010C00FE"))


class Scripts(unittest.TestCase):
    def test_closed(self):
        for part in (b"", b"0 67"):
            with kit.Scripted(part) as target, Lines(port=target.port) as client:
                self.assertRaisesRegex(LinkFault, "closed the connection", client.ask, READ)
            with kit.Scripted(part) as target, Frames(port=target.port) as client:
                self.assertRaisesRegex(LinkFault, "closed the connection", client.ask, READ)

    def test_nobody(self):
        for kind in (Lines, Frames):
            self.assertRaisesRegex(LinkFault, "Connection refused", kind, port=kit.free_port())

    def test_silence(self):
        with kit.Scripted(b"") as target, Frames(port=target.port, timeout=0.2) as client:
            self.assertIsNone(client.receive())

    def test_pieces_and_time_codes(self):
        parts = [b"\2\0" + (3).to_bytes(10, "big") + b"abc", b"\x30\0" + (2).to_bytes(10, "big") + b"\5\0" + b"\1\0" + (1).to_bytes(10, "big"), b"d"]
        with kit.Scripted(b"".join(parts)) as target, Frames(port=target.port) as client:
            client.send(READ)
            self.assertEqual(client.receive(), (b"abcd", "EEP"))

    def test_entries(self):
        text = "journal 0 5 1 10 10 FE EOP\njournal 1 entries\n0 -\n"
        with kit.Scripted(text.encode()) as target, Lines(port=target.port) as client:
            self.assertIsNone(client.ask(READ))
            self.assertEqual(client.entries, [Entry(0, 5, 1, 10, 10, b"\xfe")])


# What a target may send in the place of an answer to a packet at port 0: no line of it is one.
NO_ANSWERS = [
    b"\n", b" \n", b"0\n", b"0 \n", b"0 - -\n", b"0  -\n", b"1 -\n", b"00 -\n", b"0 discard\n", b"0 discard 5\n", b"0 discard x\n",
    b"0 discard " + b"9" * 5000 + b"\n", b"0 FE\n", b"0 FE PART\n", b"0 F EOP\n", b"0 GG EOP\n", b"0 EOP\n", b"0  EOP\n", b"1 FE EOP\n",
    b"line\n", b"line 1\n", b"line 1 fault\n", b"line 1 fault x\n", b"line 1 fault 99\n", b"line 1 fault " + b"9" * 5000 + b"\n",
    b"line 1 fault 01\n", b"line 1 fault 0001" + b"9" * 5000 + b"\n",
    b"\xff\xfe\n", b"\0\n", b"hello, world\n", b"journal x\n", b"journal 0 0 0 0 0 F EOP\n", b"journal 0 0 0 0 x FE EOP\n", b"bank\n",
    b"bank xx 00000000\n", b"journal scrub\n", b"journal scrub x mended\n", b"entry 00\n", b"entry zz damaged\n", b"set 4\n", b"cells 0 maps\n",
    b"x" * 100_000,
]


class Hostile(unittest.TestCase):
    """Whatever a target sends, a call ends in time, and with LinkFault if it is no answer."""

    def test_no_answers(self):
        for sent in NO_ANSWERS:
            with self.subTest(sent=sent[:40]), kit.Scripted(sent) as target, Lines(port=target.port, timeout=2) as client:
                self.assertRaises(LinkFault, client.ask, READ)

    def test_no_cells(self):
        for sent in (b"cells 1 maps\n", b"cells 1 0\n", b"cells 0 x\n", b"cells 0 " + b"9" * 30 + b"\n", b"cells\n", b"0 -\n", b"cells 0 -1\n"):
            with self.subTest(sent=sent[:40]), kit.Scripted(sent) as target, Lines(port=target.port, timeout=2) as client:
                self.assertRaises(LinkFault, client.cells)

    def test_no_set(self):
        for sent in (b"set\n", b"set 5\n", b"0 -\n"):
            with kit.Scripted(sent) as target, Lines(port=target.port, timeout=2) as client:
                self.assertRaises(LinkFault, client.set, 0xA0000000, b"\1")

    def test_floods_of_lines(self):
        for sent in (b"journal 0 0 0 0 0 FE EOP\n", b"bank 00 A0000000\n", b"cells 0 1\n", b"x", b"journal damaged\n"):
            with self.subTest(sent=sent), kit.Flood(sent * 200) as target, Lines(port=target.port, timeout=0.5) as client:
                for call in (lambda: client.ask(READ), client.cells, client.journal, lambda: client.set(0xA0000000, b"z")):
                    begun = time.monotonic()
                    self.assertRaises(LinkFault, call)
                    self.assertLess(time.monotonic() - begun, 3)

    def test_floods_of_frames(self):
        for flag, body in ((0x31, b"\0\0"), (2, b""), (7, b"x" * 100)):
            frame = bytes([flag, 0]) + len(body).to_bytes(10, "big") + body
            with self.subTest(flag=flag), kit.Flood(frame * 200) as target, Frames(port=target.port, timeout=0.5) as client:
                begun = time.monotonic()
                self.assertIsNone(client.ask(READ))
                self.assertLess(time.monotonic() - begun, 3)

    def test_frames_that_are_too_long(self):
        piece = b"\2\0" + (2**20).to_bytes(10, "big") + bytes(2**20)
        for sent in (b"\0\0" + b"\xff" * 10, b"\2\0" + (2**30).to_bytes(10, "big"), piece * 20):
            with kit.Flood(sent) as target, Frames(port=target.port, timeout=5) as client:
                self.assertRaisesRegex(LinkFault, "no reply is longer", client.receive)


FILE = b"""2026-11-28T17:06:42.627Z begin 1.0+6 00112233
2026-11-28T17:06:42.627Z journal 0 0 0 0 0 FE014C EOP
2026-11-28T17:06:42.700Z bank 01 00000000
2026-11-28T17:06:42.701Z journal 1 7 2 10 10 FE EEP
2026-11-28T17:06:42.702Z journal damaged
2026-11-28T17:06:42.702Z journal 3 entries
2026-11-28T17:06:42.703Z journal scrub 1 mended
2026-11-28T17:06:4
2026-11-29T00:00:00.000Z begin 1.0+6 00112233
2026-11-29T00:00:00.001Z entry 02 3 0 1 0 0 FE01 EOP
2026-11-29T00:00:00.002Z entry 02 damaged
2026-11-29T00:00:00.003Z journal 0 1 0 0 0 FE01"""


class Files(unittest.TestCase):
    def read(self):
        with tempfile.NamedTemporaryFile() as file:
            file.write(FILE)
            file.flush()
            return journal_file(file.name)

    def test_entries(self):
        found = self.read()
        self.assertEqual([(row.run, row.entry) for row in found], [
            (1, Entry(0, 0, 0, 0, 0, b"\xfe\1\x4c")), (1, Entry(1, 7, 2, 10, 10, b"\xfe", "EEP", 1)), (1, Damaged(None, 1)),
            (2, Entry(3, 0, 1, 0, 0, b"\xfe\1", "EOP", 2)), (2, Damaged(None, 2))])
        self.assertEqual([number for number, _ in found.broken], [8, 12])
        self.assertEqual(found.rows[1].as_dict(), {
            "time": "2026-11-28T17:06:42.701Z", "run": 1, "port": 1, "number": 7, "generation": 2, "verdict": 10, "status": 10,
            "packet": "FE", "end": "EEP", "bank": 1})

    def test_program(self):
        with tempfile.NamedTemporaryFile() as file:
            file.write(FILE)
            file.flush()
            room = dict(os.environ, PYTHONPATH=os.pathsep.join(sys.path))
            for form, count in (("--json", 5), ("--csv", 6)):
                done = subprocess.run([sys.executable, "-m", "sandbarstove", "journal", file.name, form], capture_output=True, text=True,
                                      check=False, env=room)
                rows = json.loads(done.stdout) if form == "--json" else done.stdout.splitlines()
                self.assertEqual((done.returncode, len(rows)), (1, count))
                self.assertIn("line 12 is no line of a journal file", done.stderr)
            done = subprocess.run([sys.executable, "-m", "sandbarstove", "--help"], capture_output=True, text=True, check=True, env=room)
            self.assertIn("journal", done.stdout)


class Examples(unittest.TestCase):
    """The examples run as docs/LIVE.md and docs/EMBEDDING.md show them."""

    @unittest.skipUnless(kit.program(), "there is no rmapctl")
    def test_clients(self):
        for name, wanted in (("over_lines", "01020304"), ("over_frames", "1122")):
            with kit.Shared("--ports", "2") as shared, tempfile.TemporaryDirectory() as room:
                code = Path(kit.TOP, f"python/examples/{name}.py").read_text(encoding="utf-8")
                code = code.replace("Lines(", f"Lines(port={shared.lines}").replace("Frames(", f"Frames(port={shared.frames}")
                path = Path(room, "example.py")
                path.write_text(code, encoding="utf-8")
                self.assertIn(wanted, kit.python(path))

    def test_node(self):
        self.assertIn("status 0 success", kit.python(Path(kit.TOP, "python/examples/own_node.py")))


if __name__ == "__main__":
    unittest.main()
