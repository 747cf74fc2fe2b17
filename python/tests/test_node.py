"""A node of the library, its journal, its memory and its cells; and a node's file."""
import os
import re
import shutil
import sys
import tempfile
import unittest
from ctypes import sizeof
from pathlib import Path
from unittest import mock

import kit

sys.path.append(str(kit.TOP / "tests"))
from node_files import GOOD, UNREAD, beside, node_files
from sandbarstove import (Bank, Damaged, LibraryFault, LoadFault, Map, Node, NodeFault, NodeFileFault, Reply, YES, command, load, reply,
                          verify)
from sandbarstove import library as c

READ = bytes.fromhex("FE014C0067000100A0000000000010C9")
WRITE = command("write", 0xA0000010, b"\x11\x22", transaction=2)
# One ticket of cell 0 of map 0 for each command; the first passes.
ONE = """.budget 8
ldmap r1, 0
mov r2, 0
call 2
jlt r0, 1, +2
mov r0, 10
exit
mov r0, 0
exit
"""
#: An image that draws a ticket of cell 0 of map 0, which a node without maps does not have.
DRAWS = bytes.fromhex("42504641 0100 0500 0400 000000000000 1851000000000000 0000000000000000 b702000000000000 8500000002000000 "
                      "9500000000000000")
FILE = """
address = 0x42
ports = 2
program = "yes.img"

[[bank]]
base = 0xA000_0000
size = 256
journal = 8
contents = "science.bin"

[[bank]]
base = 0x1000
size = 16
journal = 1

[[map]]
cells = 5
[[map]]
cells = 2
peak = true

[[publish]]
slot = 1
image = "deny.img"
"""
# (the text, the words of the refusal) of files that no node can be of: those of `rmapctl node`. What each file of tests/node_files.txt
# is answered is compared too.
BAD_FILES = [
    ("address = 256", "address 256: wanted 32 to 254, 20 to FE hexadecimal"),
    ("address = 0x1F", "address 31: wanted 32 to 254, 20 to FE hexadecimal"),
    ("adress = 1", "key adress: wanted address, bank, map, ports, program or publish"),
    ("ports = true", "ports is no number: wanted 1 to 32"),
    ("[[bank]]\nsize = 0", "bank 0 base is missing: wanted 0 to 4294967295"),
    ("[[bank]]\nbase = 0xFFFFFFFF\nsize = 2", "bank 0 size 2: wanted 1 to 1"),
    ("[[bank]]\nbase = 0\nsize = 1\njournal = 1\ncontents = 'none.bin'", "bank 0 contents none.bin: cannot be read"),
    ("[bank]\nsize = 1", "bank is no list of tables: wanted [[bank]]"),
    ("bank = [1]", "bank 0 is no table: wanted [[bank]]"),
    ("bank = []", "0 banks: wanted 1 to 8"),
    ("[[map]]\n" * 9, "9 maps: wanted at most 8"),
    ("[[map]]\ncells = 2\npeak = 1", "map 0 peak: wanted true or false"),
    ("[[map]]\ncells = 200\n[[map]]\ncells = 57", "map 1 cells 57: wanted 1 to 56"),
    ("program = 'science.bin'", "program science.bin: image fault 1 slot 0"),
    ("program = 5", "program: wanted the name of a file"),
    ("[[publish]]\nslot = 1\nimage = 'science.bin'", "publish 1 image science.bin: image fault 1 slot 0"),
    ("[[load]]\nslot = 1\nimage = 'deny.img'", "key load: [[load]] is [[publish]] since 1.0+6"),
    ("address = ", "is no TOML: Invalid value"),
]


class Nodes(unittest.TestCase):
    def test_packets(self):
        with Node() as node:
            served = node.serve(READ)
            self.assertEqual((served.kind, served.status, served.command, served.place), ("judged", 0, "read", "bank"))
            self.assertEqual((served.address, served.length, served.extended, served.room), (0xA0000000, 16, 0, 1023))
            self.assertEqual(reply(served.reply).data, bytes(16))
            self.assertEqual(reply(node.ask(WRITE)), Reply("write", 0, 0x67, 0xFE, 2))
            self.assertIsNone(node.ask(command("write", 0xA0000000, b"z", reply=False)))
            self.assertEqual(node.serve(b"\xfe\1").kind, "discarded")
            self.assertEqual(node.serve(command("read", 0, 1)).kind, "answered")
            self.assertEqual(node.serve(WRITE, end="EEP").status, 7)
            self.assertEqual(node.peek(0xA0000010, 2), b"\x11\x22")

    def test_journal(self):
        with Node([Bank(0x100, 16, 2)], ports=2) as node:
            packet = command("read", 0x100, 1)
            self.assertEqual([node.serve(packet, port).room for port in (0, 1)], [1, 0])
            self.assertEqual(node.serve(packet, 1).status, 1)
            entries = node.journal()
            self.assertEqual([(entry.port, entry.number, entry.status) for entry in entries], [(0, 0, 0), (1, 0, 0)])
            self.assertEqual([entry.packet for entry in entries], [packet] * 2)
            self.assertEqual(node.rotate(), entries)
            self.assertEqual(node.journal(), [])
            self.assertEqual(node.serve(packet, 1, "EEP").status, 7)
            self.assertEqual([(entry.number, entry.end) for entry in node.poke(0x104, b"\x55")], [(1, "EEP")])
            self.assertEqual((node.peek(0x104, 1), node.journal()), (b"\x55", []))

    def test_damaged_entries(self):
        with Node([Bank(0x100, 16, 4)]) as node:
            for _ in range(3):
                node.serve(command("read", 0x100, 1))
            whole = node.journal()
            entry_at = node._c.sandbar_entry_at
            with mock.patch.object(node, "_c", mock.Mock(wraps=node._c)) as calls:
                calls.sandbar_entry_at = lambda of, bank, place, *rest: 15 if place == 1 else entry_at(of, bank, place, *rest)
                self.assertEqual(node.journal(), [whole[0], Damaged(1, 0), whole[2]])
                self.assertEqual(node.rotate(), [whole[0], Damaged(1, 0), whole[2]])
            self.assertEqual(node.journal(), [])

    def test_load(self):
        with Node(address=0x42) as node:
            self.assertEqual(node.load(kit.DENY, [0, 1]), [1, 2])
            self.assertEqual(node.serve(command("read", 0xA0000000, 1, target=0x42)).status, 10)
            with self.assertRaisesRegex(LoadFault, "load result 33 place 0, the image does not begin with BPFA"):
                node.load(b"no image", 1)

    def test_cells(self):
        image = self.image(ONE, "1")
        with Node(maps=[Map(1), Map(2, peak=True)], image=image) as node:
            self.assertEqual([node.serve(READ).status for _ in range(3)], [0, 10, 10])
            self.assertEqual((node.word(0, 0), node.word(1, 1)), (3, 0))
            self.assertRaisesRegex(NodeFault, "no such map or cell", node.word, 0, 1)

    def image(self, text, maps):
        if not kit.program():
            self.skipTest("there is no rmapctl")
        with tempfile.TemporaryDirectory() as room:
            path = os.path.join(room, "program")
            Path(path).write_text(text, encoding="ascii")
            kit.run("asm", path, path + ".img")
            return Path(path + ".img").read_bytes()

    def test_faults(self):
        node = Node()
        rows = [(lambda: node.serve(READ, 1), "no such port"), (lambda: node.serve(bytes(4201)), "too many bytes"),
                (lambda: node.journal(1), "no such bank"), (lambda: node.peek(0, 1), "outside the bank"),
                (lambda: node.poke(0xA000FFFF, b"12"), "outside the bank"), (lambda: Node([]), "outside their limits"),
                (lambda: Node(ports=0), "outside their limits"), (lambda: Node(maps=[Map(0)]), "the maps are none"),
                (lambda: Node(image=b""), "the bytes are no image: image fault 1 slot 0"),
                (lambda: Node(image=YES[:8] + b"\1" + YES[9:]), "the verifier refuses the program: V15 slot 0")]
        for call, text in rows:
            with self.subTest(text):
                self.assertRaisesRegex(NodeFault, text, call)
        for call in (lambda: Node(address=256), lambda: Node([Bank(-1)]), lambda: node.peek(1 << 32, 1), lambda: node.word(256, 0)):
            self.assertRaises(ValueError, call)
        node.close()
        node.close()
        self.assertRaisesRegex(NodeFault, "the node, or the reader of frames, is not open", node.serve, READ)
        verify(YES)
        self.assertRaisesRegex(NodeFault, "no image", verify, b"")

    def test_library(self):
        for path in ("/nowhere.so", c.__file__):
            with mock.patch.dict(os.environ, {c.VARIABLE: path}):
                self.assertRaisesRegex(LibraryFault, "cannot be loaded", Node)
        with mock.patch.object(c, "VERSION", 0), mock.patch.dict(c._loaded, clear=True):
            self.assertRaisesRegex(LibraryFault, "has version .*, and this module is for version 0", Node)

    @unittest.skipUnless((kit.TOP / "include/sandbarstove.h").exists(), "there is no header")
    def test_header(self):
        header = (kit.TOP / "include/sandbarstove.h").read_text(encoding="utf-8")
        self.assertEqual(int(re.search(r"#define SANDBAR_VERSION (\d+)", header)[1]), c.VERSION)
        structs = re.findall(r"(\d+)(?:\s|\*(?!/))+bytes\. \*/\s*typedef struct (\w+)|(\d+)(?:\s|\*(?!/))+bytes\.\s*\*/\s*typedef struct (\w+)", header)
        found = {name or other: int(size or more) for size, name, more, other in structs}
        self.assertEqual(found, {name: sizeof(struct) for name, struct in c.STRUCTS.items()})
        text = (kit.TOP / "include/sandbarstove_text.h").read_text(encoding="utf-8")
        told = re.findall(r'return "([^"]*)"', text)[:-1]
        self.assertEqual(told, list(c.TEXTS.values()))


@unittest.skipUnless(sys.version_info >= (3, 11), "this Python has no tomllib")
class Files(unittest.TestCase):
    def setUp(self):
        self.room = tempfile.TemporaryDirectory()
        self.addCleanup(self.room.cleanup)
        for name, data in (("yes.img", YES), ("deny.img", kit.DENY), ("science.bin", b"\1\2\3\4")):
            Path(self.room.name, name).write_bytes(data)

    def file(self, text):
        path = Path(self.room.name, "node.toml")
        path.write_text(text, encoding="utf-8")
        return path

    def test_node(self):
        with Node.from_file(self.file(FILE)) as node:
            first = command("read", 0xA0000000, 5, target=0x42)
            self.assertEqual(reply(node.ask(first, 1)).data, b"\1\2\3\4\0")
            self.assertEqual(reply(node.ask(command("read", 0x100F, 1, target=0x42, extended=1))).status, 0)
            self.assertEqual(node.serve(command("write", 0x1000, b"x", target=0x42, extended=1)).status, 10)
            self.assertEqual((node.loaded, node.word(0, 4), node.word(1, 1)), (1, 0, 0))
            self.assertEqual(node.serve(READ).status, 12)

    def test_as_rmapctl(self):
        """The file of link/node_file: the replies, generations and load results of `rmapctl live`, which link/run compares with C."""
        if kit.program() is None:
            self.skipTest("there is no rmapctl")
        room = Path(self.room.name, "camera")
        shutil.copytree(kit.TOP / "link/node_file", room)
        for policy in ("table", "guard"):
            kit.run("policy", str(room / f"{policy}.txt"), str(room / f"{policy}.img"), "--maps", "5,2p")
        lines = (room / "lines.txt").read_text(encoding="utf-8").splitlines()
        printed = kit.run("live", "--node", str(room / "camera.toml"), text="\n".join(lines) + "\n").splitlines()
        with Node.from_file(room / "camera.toml") as node:
            for line, wanted in zip(lines, printed):
                port, digits, _ = line.split(" ")
                served = node.serve(bytes.fromhex(digits), int(port))
                self.assertEqual(wanted, f"{port} {served.reply.hex().upper()} EOP")
            entries = [f"journal {row.port} {row.number} {row.generation} {row.verdict} {row.status} {row.packet.hex().upper()} {row.end}"
                       for bank in (0, 1) for row in node.journal(bank)]
            self.assertEqual(entries, [line for line in printed if line.startswith("journal ") and not line.endswith("entries")])
            self.assertEqual(node.loaded, 3)

    def test_publish(self):
        with Node() as node:
            node.publish(kit.DENY, 0)
            self.assertEqual((node.serve(READ).status, node.loaded), (10, 1))
            node.publish(YES, 0)
            self.assertEqual((node.serve(READ).status, node.serve(READ).generation, node.loaded), (0, 2, 2))
            for image, slot, code in ((YES, 4, 17), (b"no image", 0, 5), (DRAWS, 0, 6)):
                with self.assertRaises(NodeFault) as caught:
                    node.publish(image, slot)
                self.assertEqual((caught.exception.code, node.loaded), (code, 2))
            node.close()
            with self.assertRaises(NodeFault) as caught:
                node.publish(YES, 0)
            self.assertEqual(caught.exception.code, 2)

    def test_empty(self):
        with Node.from_file(self.file("")) as node:
            self.assertEqual(reply(node.ask(READ)).status, 0)

    def test_refused(self):
        for text, wanted in BAD_FILES:
            with self.subTest(wanted), self.assertRaises(NodeFileFault) as caught:
                Node.from_file(self.file(text))
            self.assertIn(f"node.toml {wanted}", str(caught.exception))
        self.assertRaisesRegex(NodeFileFault, "No such file", Node.from_file, "/nowhere/node.toml")

    def test_list(self):
        """Each file of tests/node_files.txt, also those of which only the library can say it."""
        folder = Path(self.room.name, "beside")
        folder.mkdir()
        for name, data in beside().items():
            (folder / name).write_bytes(data)
        for file in node_files():
            (folder / "node.toml").write_bytes(file.content)
            with self.subTest(file.title):
                try:
                    Node.from_file(folder / "node.toml").close()
                    answer = GOOD
                except NodeFileFault as fault:
                    answer = str(fault.code) if fault.code else UNREAD
                self.assertEqual(answer, file.answer)


class Loads(unittest.TestCase):
    def test_generations(self):
        with Node(ports=2) as node:
            self.assertEqual(load(node, kit.DENY, [0, 2], 1), [1, 2])
            self.assertEqual([node.serve(packet).status for packet in (READ, WRITE)], [10, 0])
            self.assertEqual(load(node, YES, "all"), [3, 4, 5, 6])
            self.assertEqual(node.serve(READ).status, 0)

    def test_refused(self):
        with Node() as node:
            with self.assertRaises(LoadFault) as caught:
                load(node, YES[:8] + b"\1" + YES[9:], 1)
            self.assertEqual((caught.exception.code, caught.exception.place, caught.exception.stands), (15, 0, False))
            with self.assertRaises(LoadFault) as caught:
                load(node, b"no image", 1)
            self.assertEqual((caught.exception.slot, caught.exception.code), (1, 33))

    def test_last_load(self):
        with Node() as node:
            with self.assertRaises(LoadFault) as caught:
                load(node, kit.DENY, "all")
            self.assertEqual((caught.exception.slot, caught.exception.stands, caught.exception.reply.status), (3, True, 10))
            with self.assertRaises(LoadFault) as caught:
                load(node, YES, 0)
            self.assertEqual((caught.exception.stands, caught.exception.reply.status, node.loaded), (False, 10, 4))


if __name__ == "__main__":
    unittest.main()
