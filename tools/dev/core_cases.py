#!/usr/bin/env python3
"""Prints what lists of events come to, for the test of crates/interleavings.

Without an option it prints the table of src/cases.rt: a number for each list, from the seeds 0, 1,
and so on. Each list is drawn from its seed, here and in the test alike. The model keeps the whole
list and asks it anew for each answer: it has no table of blocks, no list of pending activations and
no history that is changed in place. The number of a list is a sum over all answers, and then over
its history: each claim with its flags and its packet by all calls, each call, each reply in order.
"""

from __future__ import annotations

import argparse
import math
import pathlib
import sys
from typing import Any, Optional

sys.dont_write_bytecode = True
sys.path.insert(0, str(pathlib.Path(__file__).resolve().parents[1]))
from records import VERSION  # noqa: E402 (it stands one folder above)

EXAMPLES = """\
examples:
  core_cases.py            the table of the test
  core_cases.py --counts   how often each event had each answer, in the lists of the table
"""
Cell = Optional[tuple[int, int]]  # an input and its channel, or unrouted
Row = list[Cell]
Action = list[tuple[int, int, Cell]]
Request = tuple[Any, ...]  # "now", "at", "after", "delete", "active" or "pending", and its values
Event = tuple[Any, ...]  # "claim", "look", "set", "close" or "call", and its values
Call = tuple[int, int, int, int, Request]  # claims at acceptance, client, id, tick, request
Answer = list[Any]  # numbers; of a reply also the call, or none

LISTS, EVENTS = 200, 24
HZ, FRAMES, BASE, TICKS, WORKERS = 48000, 2, 5, 4, 3
INPUTS = [2, 2]
# channels, bytes of a sample, payload type, SSRC
OUTPUTS = [(2, 2, 96, 1), (2, 3, 97, 2)]
ROWS = [[(0, 0), (1, 1)], [None, (0, 1)]]
CLAIMED, OVER, SEEN, NOTHING, DONE, ALREADY, CLOSED, REPLIED = range(1, 9)
ACTIVATED, SCHEDULED, DELETED, ACTIVE, PENDING, REFUSED = range(1, 7)


class Draws:
    """Numbers from a seed."""

    def __init__(self, seed: int) -> None:
        self.state = seed

    def upto(self, most: int) -> int:
        self.state = (self.state * 6364136223846793005 + 1442695040888963407) % 2**64
        return (self.state >> 33) % (most + 1)


def draw_cell(draws: Draws) -> Cell:
    number = draws.upto(4)
    return None if number == 4 else (number // 2, number % 2)


def draw_action(draws: Draws) -> Action:
    """Output, channel and cell of each change."""
    which = draws.upto(2)
    return [(output, draws.upto(1), draw_cell(draws)) for output in (0, 1) if which in (output, 2)]


def draw_request(draws: Draws) -> Request:
    kind = draws.upto(6)
    if kind <= 1:
        return ("now", 0, draw_action(draws))
    if kind <= 3:
        nanos = draws.upto(200) * 2000
        return ("at" if kind == 2 else "after", nanos, draw_action(draws))
    if kind == 4:
        return ("delete", 1 + draws.upto(2))
    return ("active",) if kind == 5 else ("pending",)


def draw_event(draws: Draws) -> Event:
    kind = draws.upto(9)
    if kind <= 2:
        return ("claim", draws.upto(2))
    if kind <= 4:
        worker = draws.upto(2)
        return ("look", worker, draws.upto(1))
    if kind <= 6:
        source = draws.upto(1)
        tick = BASE + draws.upto(2)
        count = FRAMES * INPUTS[source]
        samples = [draws.upto(255) * 65536 - 8388608 + draws.upto(255) for _ in range(count)]
        return ("set", source, tick, samples)
    if kind == 7:
        source = draws.upto(1)
        return ("close", source, BASE + draws.upto(2))
    client = draws.upto(3)
    return ("call", client, draw_request(draws))


def start_of(tick: int) -> int:
    return tick * FRAMES * 10**9 // HZ


def up(nanos: int) -> int:
    """The first tick that starts at or after a time."""
    tick = 0
    while start_of(tick) < nanos:
        tick += 1
    return tick


class Book:
    """The calls so far. A call: claims at acceptance, client, id, tick, request."""

    def __init__(self, calls: list[Call]) -> None:
        self.calls = calls

    @staticmethod
    def first_tick(claims: int) -> int:
        return BASE + math.ceil(claims / len(OUTPUTS))

    def deleted(self, ident: int) -> bool:
        return any(request == ("delete", ident) for _, _, _, _, request in self.calls)

    def pending(self, claims: int) -> list[Call]:
        first = self.first_tick(claims)
        return [
            call
            for call in self.calls
            if call[4][0] in ("at", "after") and not self.deleted(call[2]) and call[3] > first
        ]

    def row(self, output: int, tick: int) -> Row:
        """The row by all calls: each was made over the row that the calls before it gave at the
        first tick not begun.
        """
        row = ROWS[output]
        entries = []
        for number, (at, _, _, count_from, request) in enumerate(self.calls):
            before = Book(self.calls[:number])
            if request[0] == "delete":
                taken = next(call for call in before.calls if call[2] == request[1])
                changes = [(named, None, None) for named, _, _ in taken[4][2]]
            else:
                changes = request[2]
            for named, channel, cell in changes:
                if named == output:
                    made = list(before.row(output, self.first_tick(at)))
                    if channel is not None:
                        made[channel] = cell
                    entries.append((count_from, made))
        for count_from, made in entries:
            if count_from <= tick:
                row = made
        return row

    def last(self, claims: int) -> int:
        """The id of the activation that counted last: the greatest tick's, and its last one."""
        first = self.first_tick(claims)
        counted = [
            call
            for call in self.calls
            if call[4][0] != "delete" and call[3] <= first and not self.deleted(call[2])
        ]
        return max(counted, key=lambda call: (call[3], call[2]))[2] if counted else 0

    def ask(
        self, claims: int, client: int, request: Request
    ) -> tuple[Answer, Optional[Call]]:
        """The reply as numbers, and the call that it accepts, or none."""
        first = self.first_tick(claims)
        kind = request[0]
        if kind == "delete":
            for call in self.pending(claims):
                if call[2] == request[1]:
                    return [DELETED, request[1]], (claims, client, 0, call[3], request)
            return [REFUSED, 2, request[1]], None
        if kind == "active":
            cells = [cell for output in range(len(OUTPUTS)) for cell in self.row(output, first)]
            numbers = [0 if cell is None else 1 + cell[0] * 2 + cell[1] for cell in cells]
            return [ACTIVE, self.last(claims), *numbers], None
        if kind == "pending":
            return [PENDING] + [call[2] for call in self.pending(claims)], None
        locked = {named for call in self.pending(claims) for named, _, _ in call[4][2]}
        for named, _, _ in request[2]:
            if named in locked:
                return [REFUSED, 1, named], None
        ident = 1 + sum(1 for call in self.calls if call[4][0] != "delete")
        if kind == "now":
            return [ACTIVATED, ident, first], (claims, client, ident, first, request)
        tick = max(first, up(request[1] if kind == "at" else start_of(first) + request[1]))
        return [SCHEDULED, ident, tick], (claims, client, ident, tick, request)


class Events:
    """All that happened, each with its answer."""

    def __init__(self) -> None:
        self.taken: list[tuple[Event, Answer]] = []

    def claims(self) -> int:
        return sum(1 for _, answer in self.taken if answer[0] == CLAIMED)

    def calls(self) -> list[Call]:
        return [answer[-1] for event, answer in self.taken if event[0] == "call" and answer[-1]]

    def block(self, source: int, tick: int) -> Optional[list[int]]:
        for event, answer in self.taken:
            if event[:3] == ("set", source, tick) and answer[0] == DONE:
                return event[3]
        return None

    def latest(self, worker: int, before: int) -> Optional[int]:
        drawn = [
            answer[1]
            for event, answer in self.taken[:before]
            if event == ("claim", worker) and answer[0] == CLAIMED
        ]
        return drawn[-1] if drawn else None

    def take(self, event: Event) -> list[int]:
        """Answers the event, and keeps both; the answer's numbers."""
        kind = event[0]
        if kind == "claim":
            answer = [CLAIMED, self.claims()] if self.claims() < TICKS * len(OUTPUTS) else [OVER]
        elif kind == "look":
            latest = self.latest(event[1], len(self.taken))
            if latest is None:
                answer = [NOTHING]
            else:
                block = self.block(event[2], BASE + latest // len(OUTPUTS))
                answer = [SEEN, int(block is not None)]
        elif kind == "set":
            closed = any(
                other[:2] == ("close", event[1]) and event[2] < other[2] for other, _ in self.taken
            )
            answer = [ALREADY] if self.block(event[1], event[2]) else [CLOSED] if closed else [DONE]
        elif kind == "close":
            answer = [DONE]
        else:
            reply, call = Book(self.calls()).ask(self.claims(), event[1], event[2])
            answer = [REPLIED] + reply + [len(self.calls()), self.claims(), call]
        self.taken.append((event, answer))
        return [number for number in answer if isinstance(number, int)]

    def saw(self, claim: int, source: int) -> bool:
        worker = next(event[1] for event, answer in self.taken if answer[:2] == [CLAIMED, claim])
        for place, (event, answer) in enumerate(self.taken):
            if event == ("look", worker, source) and answer == [SEEN, 1]:
                latest = self.latest(worker, place)
                if latest <= claim and latest // len(OUTPUTS) == claim // len(OUTPUTS):
                    return True
        return False

    def shown(self, claim: int) -> list[int]:
        """The number of a claim, its flags and its packet."""
        output, tick = claim % len(OUTPUTS), BASE + claim // len(OUTPUTS)
        row = Book(self.calls()).row(output, tick)
        flags = [
            any(cell and cell[0] == source for cell in row) and self.saw(claim, source)
            for source in range(len(INPUTS))
        ]
        _, width, payload_type, ssrc = OUTPUTS[output]
        packet = b"\x80" + bytes([payload_type]) + (tick % 2**16).to_bytes(2, "big")
        packet += (tick * FRAMES % 2**32).to_bytes(4, "big") + ssrc.to_bytes(4, "big")
        for frame in range(FRAMES):
            for cell in row:
                sample = (
                    self.block(cell[0], tick)[frame * INPUTS[cell[0]] + cell[1]]
                    if cell and flags[cell[0]]
                    else 0
                )
                packet += (sample % 2**24).to_bytes(3, "big")[:width]
        return [claim] + [int(flag) for flag in flags] + list(packet)

    def history(self) -> list[int]:
        numbers = [number for claim in range(self.claims()) for number in self.shown(claim)]
        numbers += [number for call in self.calls() for number in call[:4]]
        replies = [
            (answer[-2], answer[-3], event[1]) for event, answer in self.taken if event[0] == "call"
        ]
        # A sort keeps the order of replies that are alike.
        for claims, calls, client in sorted(replies):
            numbers += [client, calls, claims]
        return numbers


def list_of(seed: int) -> tuple[Events, list[int]]:
    draws, events = Draws(seed), Events()
    numbers = [number for _ in range(EVENTS) for number in events.take(draw_event(draws))]
    return events, numbers


def number_of(seed: int) -> int:
    events, numbers = list_of(seed)
    total = 0
    for number in numbers + events.history():
        total = (total * 31 + number) % 2**32
    return total


def counts() -> list[tuple[Any, int]]:
    """How often each event had each answer."""
    kinds: dict[Any, int] = {}
    for seed in range(LISTS):
        for event, answer in list_of(seed)[0].taken:
            name = (event[0], tuple(answer[:2]) if answer[0] in (REPLIED, SEEN) else answer[0])
            kinds[name] = kinds.get(name, 0) + 1
    return sorted(kinds.items(), key=str)


def read_options() -> argparse.Namespace:
    parser = argparse.ArgumentParser(
        prog="core_cases.py",
        description=__doc__.split("\n")[0],
        epilog=EXAMPLES,
        formatter_class=argparse.RawDescriptionHelpFormatter,
    )
    parser.add_argument("--counts", action="store_true", help="count the answers instead")
    version = f"core_cases.py {VERSION}, of chanmap"
    parser.add_argument("--version", action="version", version=version)
    return parser.parse_args()


def main() -> int:
    if read_options().counts:
        for name, count in counts():
            print(f"{count:6} {name}")
        return 0
    for seed in range(LISTS):
        print(f"    {number_of(seed)},")
    return 0


if __name__ == "__main__":
    sys.exit(main())
