"""Commands, replies and the packets of loads: rows of docs/PROTOCOL.md, and what `rmapctl` makes of the same words."""
import random
import re
import tempfile
import unittest
from pathlib import Path

import kit
from sandbarstove import command, crc, load_packets, reply
from sandbarstove.packets import STATUSES
from sandbarstove.words import DISCARDS, LINES, LOADS

READ = "FE014C0067000100A0000000000010C9"
# (words of `command`, its options, the packet): the examples of docs/PROTOCOL.md and docs/COMMANDS.md.
COMMANDS = [
    (("read", 0xA0000000, 16), dict(transaction=1), READ),
    (("read", 0xA0000000, 16), {}, "FE014C0067000000A0000000000010E5"),
    (("write", 0xA0000010, b"\x01\xa5"), dict(key=0x20, transaction=2), "FE016C2067000200A0000010000002FB01A523"),
    (("rmw", 0xA0000000, b"\xf0", b"\x3c"), dict(transaction=4), "FE015C0067000400A000000000000297F03CEE"),
    (("read", 0xA0000000, 4), dict(reply_address=b"\5\6"), "FE014D000000050667000000A0000000000004E4"),
    (("write", 0xA0000010, b"\x33\x44"), dict(transaction=4, reply=False), "FE01640067000400A0000010000002233344FF"),
    (("read", 0xA0000000, 16), dict(transaction=9, extended=1), "FE014C0067000901A000000000001095"),
]
# (the words, the refusal) of what cannot be made.
REFUSED = [
    (("reed", 0, 1), {}, "kind is 'reed'"),
    (("read", 1 << 32, 1), {}, "address is 4294967296"),
    (("read", -1, 1), {}, "address is -1"),
    (("read", 0, 1 << 24), {}, "the length is 16777216"),
    (("read", 0, b"1"), {}, "a read has a length"),
    (("read", 0, None), {}, "the length is None"),
    (("read", 0, True), {}, "the length is True"),
    (("read", 0, 1), dict(verify=True), "verify is of a write"),
    (("read", 0, 1), dict(reply=False), "only a write may go without"),
    (("write", 0, 5), {}, "the data of a write are bytes"),
    (("write", 0, b"", b""), {}, "a write has no mask"),
    (("write", 0, bytes(4184)), {}, "the packet has 4201 bytes"),
    (("rmw", 0, b"12"), {}, "a mask of as many"),
    (("rmw", 0, b"12345", b"12345"), {}, "at most 4 bytes"),
    (("rmw", 0, b"1", b"1"), dict(increment=False), "the increment bit"),
    (("read", 0, 1), dict(key=256), "key is 256"),
    (("read", 0, 1), dict(transaction=1 << 16), "transaction is 65536"),
    (("read", 0, 1), dict(reply_address=bytes(13)), "the reply address has 13 bytes"),
]
REPLIES = [
    ("67010C00FE0001000000106D0123456789ABCDEF101112131415161756",
     "reply read status 0 success initiator 67 target FE transaction 0001 length 16 data 0123456789ABCDEF1011121314151617"),
    ("67012C04FE00009E", "reply write status 4 invalid data CRC initiator 67 target FE transaction 0000"),
    ("67011C0BFE000300000000CB00", "reply rmw status 11 RMW data length error initiator 67 target FE"
     " transaction 0003 length 0"),
    ("050667010D00FE000200000004A00123456799",
     "reply read status 0 success path 0506 initiator 67 target FE transaction 0002 length 4 data 01234567"),
]
BAD_REPLIES = [
    ("67012C00FE0000EC", "a wrong header CRC: it is EC and should be ED"),
    ("67010C00FE0001000000106D00", "1 bytes after the header: wanted 17"),
    ("67010D00FE000200000004A00123456798", "a wrong data CRC"),
    ("67012C00FE0000ED00", "1 bytes after the header: wanted 0"),
    ("67012C00FE00", "too few bytes"),
    ("", "too few bytes"),
    ("67022C00FE0000ED", "the protocol is not 01"),
    (READ, "it is a command"),
]


class Packets(unittest.TestCase):
    def test_commands(self):
        for words, options, wanted in COMMANDS:
            with self.subTest(wanted):
                self.assertEqual(command(*words, **options).hex().upper(), wanted)

    def test_refused_commands(self):
        for words, options, text in REFUSED:
            with self.subTest(text), self.assertRaises(ValueError) as caught:
                command(*words, **options)
            self.assertIn(text, str(caught.exception))

    def test_replies(self):
        for packet, text in REPLIES:
            with self.subTest(text):
                self.assertEqual(str(reply(bytes.fromhex(packet))), text)

    def test_bad_replies(self):
        for packet, text in BAD_REPLIES:
            with self.subTest(packet), self.assertRaises(ValueError) as caught:
                reply(bytes.fromhex(packet))
            self.assertIn(text, str(caught.exception))

    def test_crc(self):
        self.assertEqual([crc(b""), crc(b"\1"), crc(b"\2"), crc(b"\x80"), crc(b"\1\x91")], [0, 0x91, 0xE3, 0xE0, 0])

    def test_refused_loads(self):
        for slots, image in ((4, b""), ([], b""), ("one", b""), (1, bytes(16385))):
            with self.subTest(slots), self.assertRaises(ValueError):
                list(load_packets(image, slots))


class Words(unittest.TestCase):
    @unittest.skipUnless((kit.TOP / "docs/CODES.md").exists(), "there is no page of codes")
    def test_codes(self):
        """Each code has the words of the page, which is made of what the program prints."""
        page = (kit.TOP / "docs/CODES.md").read_text(encoding="utf-8")
        printed = {(kind, int(code)): text for kind, code, text in re.findall(r"^\*\*([a-zV]+)(\d+)\*\* (.*)\.$", page, re.M)}
        for (kind, code), text in list(printed.items()):
            # (a load result has the codes of the verifier from 1 on, and those of images from 33 on)
            if kind in ("V", "image"):
                printed["load", code + 32 * (kind == "image")] = text
        for kind, words in (("line", LINES), ("discard", DISCARDS), ("load", LOADS), ("status", STATUSES)):
            with self.subTest(kind):
                self.assertEqual(words, {code: text for (of, code), text in printed.items() if of == kind})


@unittest.skipUnless(kit.program(), "there is no rmapctl")
class AsTheProgram(unittest.TestCase):
    """The same words to `rmapctl packet` and `rmapctl show`."""

    def test_commands(self):
        chance = random.Random(7)
        for number in range(150):
            kind = chance.choice(["read", "write", "rmw"])
            fields = {name: chance.randrange(1 << bits) for name, bits in
                      (("target", 8), ("key", 8), ("initiator", 8), ("transaction", 16), ("extended", 8))}
            data = chance.randbytes(chance.randrange(5 if kind == "rmw" else 60))
            path = chance.randbytes(chance.choice([0, 4, 8, 12]))
            bits = {name: chance.random() < 0.5 for name in ("verify", "reply", "increment")}
            bits = {name: value for name, value in bits.items() if kind == "write" or (kind == "read" and name == "increment")}
            address = chance.randrange(1 << 32)
            shown = {"read": [str(len(data))], "write": [data.hex() or "-"], "rmw": [data.hex() or "-", data.hex() or "-"]}[kind]
            words = [word for name, value in fields.items() for word in (f"--{name}", f"{value:X}")]
            words += ["--verify"] * bits.get("verify", False) + ["--no-reply"] * (not bits.get("reply", True))
            words += ["--no-increment"] * (not bits.get("increment", True)) + ["--reply-address", path.hex() or "-"]
            line = kit.run("packet", kind, f"{address:X}", *shown, *words)
            made = command(kind, address, len(data) if kind == "read" else data, data if kind == "rmw" else None,
                           reply_address=path, **fields, **bits)
            with self.subTest(number):
                self.assertEqual(f"0 {made.hex().upper()} EOP\n", line)

    def test_loads(self):
        chance = random.Random(8)
        for size in (0, 1, 4096, 4097, 16384):
            image = chance.randbytes(size)
            with tempfile.TemporaryDirectory() as room, self.subTest(size):
                path = Path(room, "image")
                path.write_bytes(image)
                lines = kit.run("packet", "load", str(path), "--slot", "2,0", "--transaction", "FFFE", "--key", "7")
                made = load_packets(image, [2, 0], transaction=0xFFFE, key=7)
                self.assertEqual("".join(f"0 {packet.hex().upper()} EOP\n" for packet in made), lines)

    def test_replies(self):
        packets = [command("read", 0xA0000000, 5, transaction=3), command("write", 0xA0000000, b"abc"), command("read", 0, 1, key=9),
                   command("rmw", 0xA0000000, b"1", b"2", reply_address=b"\7\x1f"), command("write", 0xA0000000, b"a" * 1025, verify=True)]
        answers = kit.run("judge", "-", text="".join(f"0 {packet.hex()} EOP\n" for packet in packets)).splitlines()
        shown = kit.run("show", "-", text="\n".join(answers)).splitlines()
        for answer, text in zip(answers, shown):
            with self.subTest(text):
                self.assertEqual(f"0 {reply(bytes.fromhex(answer.split()[1]))} EOP", text)
        self.assertEqual(len(shown), len(packets))


if __name__ == "__main__":
    unittest.main()
