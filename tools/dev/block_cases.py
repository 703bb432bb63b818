#!/usr/bin/env python3
"""Prints the cases of the rule of input blocks, for the test of crates/block_builder.

Without an option it prints the table of src/tests/cases.rt, from the seeds below. With --check it
compares, on cases drawn at random, the rule as it is stated (a run over integers, which keeps the
set of open ticks) with the rule by each frame alone.

A case: frames of a tick, channels, bytes of a sample, first tick, hold, ticks, number of arrivals.
Each arrival: kind, number, frames, how many closed ticks are handed out after it, answer. Then for
each tick, frame by frame, the mark of what the frame holds, and 0 for silence.

Kinds: 0 a packet (number is its timestamp), 1 one of payload type 5, 2 one with a byte too much,
3 one that is no RTP (number is the first byte of 12), 4 a reading of the clock (number is its
tick), 5 the end. Answers: how many frames were stored, or one of the numbers below. The mark of
frame f of arrival a is 1 + 32 * a + f.
"""

from __future__ import annotations

import argparse
import pathlib
import random
import sys
from dataclasses import dataclass, field

sys.dont_write_bytecode = True
sys.path.insert(0, str(pathlib.Path(__file__).resolve().parents[1]))
from records import VERSION  # noqa: E402 (it stands one folder above)

HALF, WHOLE = 2**31, 2**32
BEYOND, FOREIGN, PART, MISFIT, NOTHING = 1000, 1001, 1002, 1003, 1004
# Chosen for packets of which a part is stored, all kinds and answers, and bases on both sides of
# the wraps of timestamps.
SEEDS = [
    *[57, 81, 317, 365, 858, 949, 1102, 1207, 1215, 1241],
    *[1331, 1447, 1512, 1543, 1568, 1774, 1850, 1896, 2050, 2185],
    *[2368, 2441, 2454, 2474, 2567, 2655, 2701, 3091, 3132, 3152],
    *[3265, 3290, 3342, 3399, 3432, 3667, 3691, 3824, 3947, 3968],
]


EXAMPLES = """\
examples:
  block_cases.py                the table of the test
  block_cases.py --check 1000   1000 cases at random, by both rules
"""
Arrival = tuple[int, int, int, int]  # kind, number, frames, closed ticks handed out after it


@dataclass
class Case:
    frames: int
    channels: int
    size: int
    base: int
    hold: int
    ticks: int
    arrivals: list[Arrival] = field(default_factory=list)

    @property
    def first(self) -> int:
        return self.base * self.frames

    @property
    def end(self) -> int:
        return (self.base + self.ticks) * self.frames

    def first_frame(self, timestamp: int) -> int:
        """The one frame with this timestamp from 2^31 before the session's first frame on, below
        2^31 after it.
        """
        at = timestamp + (self.first - HALF - timestamp + WHOLE - 1) // WHOLE * WHOLE
        assert self.first - HALF <= at < self.first + HALF and at % WHOLE == timestamp
        return at


class Run:
    """The rule as it is stated."""

    def __init__(self, case: Case) -> None:
        self.case = case
        self.held: dict[int, int] = {}
        self.open = set(range(case.base, case.base + case.ticks))

    def close(self, last: int) -> None:
        self.open = {t for t in self.open if not t + self.case.hold < last}

    def take(self, number: int, kind: int, value: int, frames: int) -> int:
        case = self.case
        if kind == 4:
            self.close(value)
        if kind == 5:
            self.open = set()
        if kind >= 3:
            return MISFIT if kind == 3 else NOTHING
        if kind > 0:
            return FOREIGN if kind == 1 else PART
        first = case.first_frame(value)
        if first >= case.end:
            return BEYOND
        used = 0
        for at in range(first, first + frames):
            is_open = case.first <= at < case.end and at // case.frames in self.open
            if is_open and at not in self.held:
                self.held[at] = 1 + 32 * number + at - first
                used += 1
        if frames > 0:
            self.close((first + frames - 1) // case.frames)
        return used


def by_frame(case: Case, at: int) -> int:
    """What a frame holds: the first packet that counts and covers it, unless something before it
    closed its tick.
    """
    for number, (kind, value, frames, _) in enumerate(case.arrivals):
        last = None
        if kind == 0 and frames > 0 and case.first_frame(value) < case.end:
            first = case.first_frame(value)
            if first <= at < first + frames:
                return 1 + 32 * number + at - first
            last = (first + frames - 1) // case.frames
        if kind == 4:
            last = value
        if kind == 5 or last is not None and at // case.frames + case.hold < last:
            return 0
    return 0


def arrival(rng: random.Random, case: Case) -> Arrival:
    span = case.ticks * case.frames
    kind = rng.choices([0, 1, 2, 3, 4, 5], [30, 1, 1, 1, 5, 0.4])[0]
    drains = rng.choice([0, 0, 1, 2, 9])
    frames = rng.choice([0, 1, case.frames, rng.randrange(4 * case.frames + 2)])
    if kind == 3:
        return kind, rng.choice([0x00, 0x40, 0xC0, 0x81, 0x90, 0xA0]), 0, drains
    if kind == 4:
        return kind, max(0, case.base + rng.randrange(-2, case.ticks + case.hold + 3)), 0, drains
    if kind == 5:
        return kind, 0, 0, drains
    near = case.first + rng.randrange(-2 * case.frames - 2, span + case.frames + 2)
    edge = case.first + rng.choice([-HALF, HALF - 1, -1, 0, span - 1, span])
    at = near if rng.random() < 0.85 else edge
    return kind, at % WHOLE, frames, drains


def make(seed: int) -> Case:
    rng = random.Random(seed)
    frames = rng.choice([1, 2, 3])
    bases = [0, 1, 5, WHOLE // frames - 2, HALF // frames, 3 * WHOLE // frames + 1]
    channels, size, base = rng.choice([1, 2]), rng.choice([2, 3]), rng.choice(bases)
    hold, ticks = rng.choice([0, 1, 2]), rng.choice([1, 3, 5, 8])
    case = Case(frames, channels, size, base, hold, ticks)
    case.arrivals = [arrival(rng, case) for _ in range(rng.randrange(2, 10))]
    return case


def solve(case: Case) -> tuple[list[int], list[int]]:
    """The answers to the arrivals, and what each frame holds; both rules agree."""
    run = Run(case)
    answers = [
        run.take(n, kind, value, frames) for n, (kind, value, frames, _) in enumerate(case.arrivals)
    ]
    held = [run.held.get(at, 0) for at in range(case.first, case.end)]
    assert held == [by_frame(case, at) for at in range(case.first, case.end)], vars(case)
    return answers, held


def row(case: Case) -> list[int]:
    answers, held = solve(case)
    numbers = [case.frames, case.channels, case.size, case.base, case.hold, case.ticks]
    numbers.append(len(answers))
    for (kind, value, frames, drains), answer in zip(case.arrivals, answers):
        numbers += [kind, value, frames, drains, answer]
    return numbers + held


def read_options() -> argparse.Namespace:
    parser = argparse.ArgumentParser(
        prog="block_cases.py",
        description=__doc__.split("\n")[0],
        epilog=EXAMPLES,
        formatter_class=argparse.RawDescriptionHelpFormatter,
    )
    check = "compare the two rules on N random cases instead"
    parser.add_argument("--check", metavar="N", type=int, help=check)
    version = f"block_cases.py {VERSION}, of chanmap"
    parser.add_argument("--version", action="version", version=version)
    return parser.parse_args()


def main() -> int:
    options = read_options()
    if options.check is None:
        for seed in SEEDS:
            print("    &[" + ", ".join(map(str, row(make(seed)))) + "],")
        return 0
    for seed in range(options.check):
        solve(make(seed))
    print(f"{options.check} cases: the rules agree")
    return 0


if __name__ == "__main__":
    sys.exit(main())
