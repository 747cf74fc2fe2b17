"""Loads of programs into a target that runs."""
from __future__ import annotations

from typing import Iterable, Optional, Protocol, Union

from .packets import Reply, load_packets, reply, slots_of
from .words import LOADS, said


class Target(Protocol):
    """What answers packets: a Node, Lines or Frames."""

    def ask(self, packet: bytes, port: int = 0) -> Optional[bytes]: ...


class LoadFault(Exception):
    """A load of which the target does not say that it was carried out: the slot, and the reply that says why.

    `code` and `place` are those of the load result (docs/PROTOCOL.md), if it could be read, else 0. `stands` says that the
    load was carried out all the same: its result could not be read, as after a load into slot 3 that denies the read.
    """

    def __init__(self, slot: int, told: Optional[Reply], code: int = 0, place: int = 0, stands: bool = False):
        self.slot, self.reply, self.code, self.place, self.stands = slot, told, code, place, stands
        why = "no reply" if told is None else f"load result {code} place {place}, {said(LOADS, code)}" if code else f"status {told.status} {told.meaning}"
        super().__init__(f"slot {slot}: {why}" + (", of the read of the result: the load is done" if stands else ""))


def _asked(target: Target, packet: bytes, transaction: int, port: int, slot: int, stands: bool = False) -> Reply:
    """The reply to a packet of a load. A reply to another packet, as one that comes late, is none to this one."""
    came = target.ask(packet, port)
    told = None if came is None else reply(came)
    if told is None or told.transaction != transaction & 0xFFFF:
        raise LoadFault(slot, None, stands=stands)
    return told


def _stage(target: Target, writes: list[bytes], transaction: int, port: int, slot: int) -> None:
    """Sends the parts of an image. The first that is not answered with status 0 ends it."""
    for number, packet in enumerate(writes):
        told = _asked(target, packet, transaction + number, port, slot)
        if told.status:
            raise LoadFault(slot, told)


def _stage_again(target: Target, writes: list[bytes], transaction: int, port: int, slot: int, tries: int) -> None:
    """Sends the parts of an image, and all of them again after one that failed, so many times at most."""
    for left in reversed(range(tries)):
        try:
            return _stage(target, writes, transaction, port, slot)
        except LoadFault:
            if left == 0:
                raise


def _loaded(target: Target, packets: list[bytes], transaction: int, port: int, slot: int, tries: int) -> int:
    """Sends the packets of a load into one slot, and gives its generation. The control write has no sum of the image: it is sent only
    if each part was answered with status 0."""
    *writes, control, read = packets
    _stage_again(target, writes, transaction, port, slot, tries)
    control_told = _asked(target, control, transaction + len(writes), port, slot)
    told = _asked(target, read, transaction + len(writes) + 1, port, slot, control_told.status == 0)
    result = told.data if told.status == 0 and told.data is not None and len(told.data) == 8 else None
    code, place = (result[0], int.from_bytes(result[2:4], "big")) if result else (0, 0)
    if control_told.status:
        raise LoadFault(slot, control_told, code, place)
    if result is None:
        raise LoadFault(slot, told, stands=True)
    generation = int.from_bytes(result[4:], "big")
    if code or not generation:
        raise LoadFault(slot, told, code, place)
    return generation


def load(target: Target, image: bytes, slots: Union[str, int, Iterable[int]] = "all", port: int = 0, *, address: int = 0xFE,
         key: int = 0, initiator: int = 0x67, transaction: int = 0, tries: int = 1) -> list[int]:
    """Loads an image into slots, one after another, and gives the generation of each. The first that fails ends it.

    An image is loaded if each of its parts and its control write was answered with status 0, and its load result has a
    generation. A part whose reply did not come counts as one that failed: then no control write is sent, or all parts are sent
    again, `tries` times at most. What is staged belongs to a port, so a loader has a port of its own.
    """
    if tries < 1:
        raise ValueError(f"tries is {tries}: at least 1")
    generations = []
    for slot in slots_of(slots):
        packets = list(load_packets(image, slot, transaction=transaction, target=address, key=key, initiator=initiator))
        generations.append(_loaded(target, packets, transaction, port, slot, tries))
        transaction = transaction + len(packets) & 0xFFFF
    return generations
