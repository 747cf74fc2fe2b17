"""A node in this process: a read, what became of it, and its journal."""
from sandbarstove import Node, command, reply

with Node() as node:
    node.poke(0xA0000000, bytes.fromhex("01020304"))
    served = node.serve(command("read", 0xA0000000, 4, transaction=1))
    print(reply(served.reply))
    print(served.kind, served.command, f"{served.address:08X}", "verdict", served.verdict, "room", served.room)
    for entry in node.journal():
        print(entry.port, entry.number, entry.status, entry.packet.hex())
