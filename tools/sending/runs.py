"""A run of a suite."""
from __future__ import annotations

import argparse
from typing import Optional

from sending.choices import Opened, profile_of
from sending.commands import command_of, reply_of
from sending.lines import AFTER, Packet, awaited
from sending.memory import Keeper
from sending.suites import Item, Outcome, read_index, report_of
from sending.targets import Bench
from sending.telling import Stop, tell


def send_suite(bench: Bench, outcomes: list[Outcome], opened: Optional[Opened]) -> None:
    """Sends the packets in turn, and notes what came of each."""
    for outcome in outcomes:
        outcome.came = bench.send(outcome.packet, outcome.due)
        outcome.is_sent = True
        outcome.choice = opened.choice(outcome.packet.data(), outcome.due, outcome.came) if opened else None
        if outcome.kind not in ("right", "open"):
            bench.differs(outcome.packet, outcome.due, outcome.came)
    bench.answer(AFTER, max(bench.quiet, 1))


def outcomes_of(bench: Bench, packets: list[Packet], due: list[str], items: list[Item],
                opened: Optional[Opened]) -> tuple[list[Outcome], Optional[Stop]]:
    """What came of each packet that was sent, and what ended the run before its end, if anything did."""
    outcomes = [Outcome(item, packet, right) for packet, right, item in zip(packets, due, items)]
    stopped = None
    try:
        send_suite(bench, outcomes, opened)
    except Stop as stop:
        stopped = None if outcomes[-1].is_sent else stop
    outcomes = [outcome for outcome in outcomes if outcome.is_sent]
    for outcome in outcomes:
        wanted = awaited(outcome.packet.data())
        if wanted and outcome.due != "-":
            outcome.late = bench.late.get(wanted.transaction)
            outcome.extra = bench.extra.get(wanted.transaction)
            bench.different += outcome.extra is not None and outcome.due == outcome.came
    return outcomes, stopped


def target_of(packets: list[Packet], due: list[str]) -> Optional[int]:
    """The logical address of the node that the replies are of: that of the first command that is carried out."""
    for packet, right in zip(packets, due):
        command = command_of(packet.data())
        reply = reply_of(right, command) if command else None
        if command and reply and reply.status == 0:
            return command.target
    return None


def run_suite(bench: Bench, given: argparse.Namespace, packets: list[Packet], due: list[str]) -> None:
    """Sends a suite, and writes its report."""
    items, missing = read_index(given.index, len(packets))
    opened = Opened(profile_of(given.profile), target_of(packets, due)) if given.profile else None
    keeper = Keeper(bench, packets, due) if given.restore else None
    if keeper:
        keeper.read()
    outcomes, stopped = outcomes_of(bench, packets, due, items, opened)
    missing += [f"the packets after number {len(outcomes)}: {stopped}"] if stopped else []
    kept = keeper.restore() if keeper and not stopped else ["all: the run ended before its end"] if keeper else []
    for text in kept:
        tell(f"memory {text}")
    try:
        with open(given.report, "w", encoding="utf-8") as file:
            file.write(report_of(given.place, given, outcomes, missing, kept))
    except OSError as error:
        raise Stop(f"cannot write {given.report}: {error.strerror}") from None
    if stopped:
        raise stopped
