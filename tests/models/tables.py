"""What a policy table decides. Written from docs/POLICIES.md (*A policy as a table*) alone."""
from __future__ import annotations

from collections.abc import Callable
from dataclasses import dataclass

from models.fields import Fields

# Of which instructions the rules of a kind are: the bits that count, and what they are.
KINDS_OF_RULES = {"read": (0xF8, 0x48), "write": (0xE0, 0x60), "rmw": (0xFC, 0x5C), "any": (0, 0)}


@dataclass(frozen=True)
class Rule:
    """A rule of a table; a field of None is any."""
    kind: str
    fields: list[int | None]
    low: int
    high: int
    quota: tuple[int, int, int] | None
    verdict: int

    def text(self) -> str:
        fields = ["*" if it is None else f"{it:02X}" for it in self.fields]
        quota = "-" if self.quota is None else ":".join(map(str, self.quota))
        return f"{self.kind} {' '.join(fields)} {self.low:08X} {self.high:08X} {quota} {self.verdict}\n"

    def matches(self, packet: Fields) -> bool:
        """Whether all but the quota matches."""
        mask, wanted = KINDS_OF_RULES[self.kind]
        found = [packet.data[3], packet.field(4, 1), packet.extended]
        last = packet.address + (max(packet.length, 1) - 1 if packet.has(0x04) else 0)
        return (packet.instruction & mask == wanted and all(it in (None, byte) for it, byte in zip(self.fields, found))
                and self.low <= packet.address and last <= self.high)


def decide(rules: list[Rule], packet: Fields, draw: Callable[[int, int], int]) -> int:
    """The verdict of a table: that of the first rule that matches, and whose ticket is below its limit."""
    for rule in rules:
        if rule.matches(packet) and (rule.quota is None or draw(*rule.quota[:2]) < rule.quota[2]):
            return rule.verdict
    return 10


@dataclass(frozen=True)
class PortRule:
    """A rule of a table of version 2: its port, if it has one, and the name of its range, if it stands there by a name."""
    rule: Rule
    port: int | None
    name: str | None

    def text(self, comment: str) -> str:
        words = self.rule.text().split()
        if self.name is not None:
            words[4:6] = [self.name]
        port = [] if self.port is None else ["port", str(self.port)]
        return " ".join([*words, *port]) + comment + "\n"


def rules_at(rules: list[PortRule], port: int) -> list[Rule]:
    """The rules that are asked at a port."""
    return [own.rule for own in rules if own.port in (None, port)]
