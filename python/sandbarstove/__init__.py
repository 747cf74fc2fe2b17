"""An RMAP target (ECSS-E-ST-50-52C) for benches in Python: the proved node in this process, and clients of one over TCP.

    from sandbarstove import Node, command, reply
    node = Node()
    print(reply(node.ask(command("read", 0xA0000000, 16))))

`Node` is the proved library, `libsandbarstove.so`, which SANDBAR_LIBRARY may name. `Lines` and `Frames` are clients of
`rmapctl live` and `tools/share`, and `journal_file` reads the file that the bridge wrote. `command`, `reply` and `load` are
by the rules of `rmapctl packet` and `rmapctl show`.
The module needs only Python's standard library: 3.9 or later, and 3.11 or later for `Node.from_file`.
"""
from .files import NodeFileFault
from .journals import Damaged, Entry, Filed, JournalFile, journal_file
from .library import LibraryFault
from .links import BadLine, Discarded, Frames, Lines, LinkFault
from .loads import LoadFault, load
from .node import YES, Bank, Map, Node, NodeFault, Scrubbed, Served, verify
from .packets import Reply, command, crc, load_packets, reply

__all__ = [
    "BadLine", "Bank", "Damaged", "Discarded", "Entry", "Filed", "Frames", "JournalFile", "LibraryFault", "Lines", "LinkFault", "LoadFault",
    "Map", "Node", "NodeFault", "NodeFileFault", "Reply", "Scrubbed", "Served", "YES", "command", "crc", "journal_file", "load",
    "load_packets", "reply", "verify",
]
