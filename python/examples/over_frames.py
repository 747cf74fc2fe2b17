"""A talk in frames, with this target or another after a bridge."""
from sandbarstove import Frames, command, reply

target = Frames()
print(reply(target.ask(command("write", 0xA0000010, bytes.fromhex("1122"), transaction=1))))
print(reply(target.ask(command("read", 0xA0000010, 2, transaction=2))))
