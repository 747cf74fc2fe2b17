"""Packets of commands, written from the standard alone: the header of an RMAP command, and its checks."""
from __future__ import annotations

# The polynomial of the RMAP check, with the least significant bit first.
POLYNOMIAL = 0xE0


def register_of(byte: int) -> int:
    """What the check's register is after this byte, from zero."""
    for _ in range(8):
        byte = byte >> 1 ^ (POLYNOMIAL if byte & 1 else 0)
    return byte


TABLE = [register_of(byte) for byte in range(256)]


def crc(data: bytes) -> int:
    """The check of bytes."""
    register = 0
    for byte in data:
        register = TABLE[register ^ byte]
    return register


def header(instruction: int, address: int, length: int, *, key: int = 0, initiator: int = 0x67, transaction: int = 0,
           extended: int = 0, target: int = 0xFE) -> bytes:
    """The header of a command, without its check."""
    return (bytes([target, 1, instruction, key, initiator]) + transaction.to_bytes(2, "big") + bytes([extended])
            + address.to_bytes(4, "big") + length.to_bytes(3, "big"))
