"""A capture and its result over the ticks: a line an input and output, and the calls."""

from __future__ import annotations

from collections.abc import Iterator
from typing import Optional

from records.reading import Device, Record, samples
from records.words import moment_words, request_words

TICKS_A_LINE = 60
RULER_STEP = 10
NOTHING, SILENCE, SOUND = " ", ".", "#"
LEGEND = "# sound   . silence   (blank) no packet   1-9 * a call counts from here   + several calls"


def ticks_of_packet(values: dict, device: Device) -> range:
    """The ticks in which a packet that came in has a frame, after its timestamp alone."""
    frames = len(samples(values) or [])
    first = values["timestamp"]
    if not device.frames or not frames:
        return range(0)
    return range(first // device.frames, (first + frames - 1) // device.frames + 1)


def has_sound(values: dict) -> bool:
    return values["payload"].strip("0") != ""


class Timeline:
    """Marks by port and tick, and the calls by the tick from which they count."""

    def __init__(self, device: Device) -> None:
        self.device = device
        self.inputs: dict[str, dict[int, str]] = {one.name: {} for one in device.inputs}
        self.outputs: dict[str, dict[int, str]] = {one.name: {} for one in device.outputs}
        self.calls: dict[int, list[Record]] = {}

    def add(self, record: Record) -> None:
        values = record.values
        if record.kind == "packet" and "timestamp" in values and values["input"] in self.inputs:
            for tick in ticks_of_packet(values, self.device):
                mark(self.inputs[values["input"]], tick, has_sound(values))
        elif record.kind == "claim" and values.get("output") in self.outputs:
            mark(self.outputs[values["output"]], values["tick"], has_sound(values))
        elif record.kind == "call":
            self.calls.setdefault(values["tick"], []).append(record)

    def ticks(self, chosen: Optional[range]) -> range:
        """From the first to the last tick that has a mark, within those chosen."""
        there: set[int] = set(self.calls)
        for marks in [*self.inputs.values(), *self.outputs.values()]:
            there.update(marks)
        if chosen is not None:
            there = {tick for tick in there if tick in chosen}
        return range(min(there), max(there) + 1) if there else range(0)

    def call_marks(self) -> dict[int, str]:
        marks = {}
        for tick, calls in self.calls.items():
            number = calls[0].values["id"]
            marks[tick] = "+" if len(calls) > 1 else (str(number) if 0 < number < 10 else "*")
        return marks

    def lines(self, chosen: Optional[range] = None, output: Optional[str] = None) -> Iterator[str]:
        rows: list[tuple[str, dict[int, str]]] = []
        rows += [(f"input {name}", marks) for name, marks in self.inputs.items()]
        rows += [(f"output {n}", m) for n, m in self.outputs.items() if output in (None, n)]
        rows.append(("calls", self.call_marks()))
        width = max([len(name) for name, _ in rows] + [len("tick")])
        ticks = self.ticks(chosen)
        for start in range(ticks.start, ticks.stop, TICKS_A_LINE):
            part = range(start, min(start + TICKS_A_LINE, ticks.stop))
            yield f"{'tick':<{width}}  {ruler(part)}".rstrip()
            for name, marks in rows:
                line = "".join(marks.get(tick, NOTHING) for tick in part)
                yield f"{name:<{width}}  {line}".rstrip()
            yield ""
        for tick in sorted(self.calls):
            for call in self.calls[tick]:
                if tick in ticks:
                    number = f" {call.values['id']}" if call.values["id"] else ""
                    moment = moment_words(call.values)
                    yield f"call{number} from {moment}: {request_words(call.values)}"
        yield LEGEND


def mark(marks: dict[int, str], tick: int, sound: bool) -> None:
    marks[tick] = SOUND if sound or marks.get(tick) == SOUND else SILENCE


def ruler(part: range) -> str:
    """The first tick, and each that is a multiple of ten, at its place, where there is room."""
    text = ""
    for tick in part:
        place = tick - part.start
        if (tick % RULER_STEP == 0 or place == 0) and (len(text) < place or place == 0):
            text += " " * (place - len(text)) + str(tick)
    return text


def timeline(records: list[Record], device: Device) -> Timeline:
    made = Timeline(device)
    for record in records:
        made.add(record)
    return made
