"""A talk in lines with `tools/share`, or with `rmapctl live` by way of `socat`."""
from sandbarstove import Lines, command, reply

target = Lines()
target.set(0xA0000000, bytes.fromhex("01020304"))
print(reply(target.ask(command("read", 0xA0000000, 4, transaction=5))))
for entry in target.journal():
    print(entry.port, entry.number, entry.status, entry.packet.hex())
