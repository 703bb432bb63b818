"""Captures to measure with. docs/FORMATS.md tells their bytes."""

from __future__ import annotations

import random
from collections.abc import Callable
from dataclasses import dataclass, field

WIDTHS = {16: 2, 24: 3}  # the bytes of a sample, by its bits
HZ = 48000
BILLION = 1_000_000_000  # nanoseconds of a second


@dataclass
class Port:
    """An input, or an output with its base row: for each channel an input and its channel, or (255,
    0).
    """

    name: bytes
    channels: int
    bits: int
    payload_type: int
    ssrc: int
    row: list[tuple[int, int]] = field(default_factory=list)

    def frame_bytes(self) -> int:
        return self.channels * WIDTHS[self.bits]


@dataclass
class Device:
    frames: int
    hold: int
    inputs: list[Port]
    outputs: list[Port]

    def samples(self, ticks: int) -> int:
        """How many samples the claims of these ticks put out."""
        return ticks * self.frames * sum(port.channels for port in self.outputs)

    def block_bytes(self, ticks: int) -> int:
        """How many bytes the blocks of all inputs take over these ticks, at 4 bytes a sample."""
        return 4 * ticks * self.frames * sum(port.channels for port in self.inputs)


@dataclass
class Measured:
    """A capture, how many samples its result holds, and how many bytes its blocks take."""

    data: bytes
    samples: int
    block_bytes: int


def record(tag: bytes, body: bytes) -> bytes:
    return tag + len(body).to_bytes(4, "big") + body


def device_record(device: Device) -> bytes:
    body = HZ.to_bytes(4, "big") + device.frames.to_bytes(2, "big") + bytes(8)
    body += bytes([device.hold, len(device.inputs), len(device.outputs)])
    for port in device.inputs:
        body += bytes([len(port.name)]) + port.name
        body += bytes([port.channels, port.bits, port.payload_type, 1, 1])
    for port in device.outputs:
        body += bytes([len(port.name)]) + port.name
        body += bytes([port.channels, port.bits, port.payload_type])
        body += port.ssrc.to_bytes(4, "big") + b"\xff"
        body += b"".join(bytes(cell) for cell in port.row)
    return record(b"D", body)


def packet(source: int, port: Port, timestamp: int, payload: bytes) -> bytes:
    head = bytes([0x80, port.payload_type, 0, 0]) + (timestamp % (1 << 32)).to_bytes(4, "big")
    return record(b"P", bytes([source]) + head + port.ssrc.to_bytes(4, "big") + payload)


def work(claims: int) -> bytes:
    return record(b"T", claims.to_bytes(4, "big"))


def whole(device: Device, ticks: int, records: list[bytes]) -> Measured:
    data = b"CHMCAP1\n" + device_record(device) + b"".join(records) + record(b"E", b"")
    return Measured(data, device.samples(ticks), device.block_bytes(ticks))


def routed(draw: random.Random, inputs: list[Port], channels: int) -> list[tuple[int, int]]:
    row = []
    for _ in range(channels):
        source = draw.randrange(len(inputs))
        row.append((source, draw.randrange(inputs[source].channels)))
    return row


def plain_device(
    draw: random.Random, frames: int, sizes: tuple[int, int, int, int], bits: int
) -> Device:
    """A device of these numbers of inputs and outputs, with their channels, each routed."""
    inputs, of_input, outputs, of_output = sizes
    ports = [Port(b"in%d" % n, of_input, 16, 96, 100 + n) for n in range(inputs)]
    outs = [Port(b"out%d" % n, of_output, bits, 97, n + 1) for n in range(outputs)]
    for port in outs:
        port.row = routed(draw, ports, of_output)
    return Device(frames, 2, ports, outs)


def in_order(draw: random.Random, device: Device, ticks: int) -> list[bytes]:
    """For each tick a packet of each input that fills it, and its claims."""
    records = []
    for tick in range(ticks):
        for source, port in enumerate(device.inputs):
            payload = draw.getrandbits(8 * device.frames * port.frame_bytes())
            size = device.frames * port.frame_bytes()
            records.append(
                packet(source, port, tick * device.frames, payload.to_bytes(size, "big"))
            )
        records.append(work(len(device.outputs)))
    return records


def heavy(ticks: int) -> Measured:
    """16 inputs of 8 channels in L16, and 32 outputs of 4 in L24, at 120 frames a tick."""
    draw = random.Random(1)
    device = plain_device(draw, 120, (16, 8, 32, 4), 24)
    return whole(device, ticks, in_order(draw, device, ticks))


def one_frame(ticks: int) -> Measured:
    """The same ports at one frame a tick: heads outweigh samples."""
    draw = random.Random(2)
    device = plain_device(draw, 1, (16, 8, 32, 4), 24)
    return whole(device, ticks, in_order(draw, device, ticks))


def disturbed(ticks: int) -> Measured:
    """The ports of `heavy` at 48 frames: packets of other lengths than a tick's, of which some are
    lost, late, doubled, or overlap.
    """
    draw = random.Random(3)
    device = plain_device(draw, 48, (16, 8, 32, 4), 24)
    arrivals = []  # the frame before which a packet comes, and the packet
    for source, port in enumerate(device.inputs):
        at = draw.randrange(48) - 48
        while at < ticks * device.frames:
            frames = draw.randrange(1, 120)
            payload = draw.getrandbits(8 * frames * port.frame_bytes()).to_bytes(
                frames * port.frame_bytes(), "big"
            )
            made = packet(source, port, at, payload)
            chance = draw.random()
            if chance >= 0.05:  # else it is lost
                late = draw.randrange(5 * 48) if chance < 0.15 else 0
                arrivals.append((at + frames + late, made))
            if 0.15 <= chance < 0.2:
                arrivals.append((at + frames, made))
            at += frames if chance < 0.9 else draw.randrange(1, frames + 1)
    arrivals.sort(key=lambda arrival: arrival[0])
    records = []
    for tick in range(ticks):
        while arrivals and arrivals[0][0] <= (tick + 1) * device.frames:
            records.append(arrivals.pop(0)[1])
        records.append(work(len(device.outputs)))
    return whole(device, ticks, records + [made for _, made in arrivals])


def ask(draw: random.Random, request: bytes) -> bytes:
    return record(b"A", bytes([draw.randrange(16)]) + request)


def action(draw: random.Random, device: Device, output: int) -> bytes:
    """An action that routes each channel of an output anew."""
    row = routed(draw, device.inputs, device.outputs[output].channels)
    cells = b"".join(bytes([channel, *cell]) for channel, cell in enumerate(row))
    return bytes([1, output, len(row)]) + cells


def requests(ticks: int) -> Measured:
    """The ports of `heavy` at 6 frames a tick, with 480 activations."""
    draw = random.Random(4)
    device = plain_device(draw, 6, (16, 8, 32, 4), 24)
    records = in_order(draw, device, ticks)
    for _ in range(480):
        made = ask(draw, b"\0" + action(draw, device, draw.randrange(len(device.outputs))))
        records.insert(draw.randrange(len(records) + 1), made)
    return whole(device, ticks, records)


class RequestMix:
    """Requests of all kinds. Activations of locked outputs are refused, and deletions of what
    is not pending.
    """

    def __init__(self, draw: random.Random, device: Device) -> None:
        self.draw, self.device = draw, device
        self.accepted = 0
        self.scheduled: dict[int, tuple[int, int]] = {}  # by output the last one's id and tick

    def request(self, op: int, tick: int) -> bytes:
        """A request at the first tick not begun."""
        if op > 3:
            return bytes([op])
        return self.deletion(tick) if op == 3 else self.activation(op, tick)

    def activation(self, op: int, tick: int) -> bytes:
        """One of a scheduled time counts up to 16 ticks later."""
        output, ahead = self.draw.randrange(len(self.device.outputs)), self.draw.randrange(1, 17)
        if self.scheduled.get(output, (0, 0))[1] <= tick:
            self.accepted += 1
            if op > 0:
                self.scheduled[output] = self.accepted, tick + ahead
        times = [b"", self.time(tick + ahead), self.time(ahead)]
        return bytes([op]) + times[op] + action(self.draw, self.device, output)

    def time(self, ticks: int) -> bytes:
        """The time that these ticks take, in seconds and nanoseconds."""
        seconds, nanos = divmod(ticks * self.device.frames * BILLION // HZ, BILLION)
        return seconds.to_bytes(8, "big") + nanos.to_bytes(4, "big")

    def deletion(self, tick: int) -> bytes:
        output = self.draw.choice([*self.scheduled, None])
        number, counts_from = self.scheduled.get(output, (0, 0))
        if counts_from > tick:
            del self.scheduled[output]
        return b"\3" + number.to_bytes(8, "big")


def requests500(ticks: int) -> Measured:
    """The ports of `requests`: 320 activations, 120 scheduled, 60 deletions, 120 readings."""
    draw = random.Random(5)
    device = plain_device(draw, 6, (16, 8, 32, 4), 24)
    records, made = in_order(draw, device, ticks), RequestMix(draw, device)
    ops = [0] * 200 + [1, 2, 3, 4, 5] * 60
    draw.shuffle(ops)
    places = sorted(draw.randrange(len(records) + 1) for _ in ops)
    a_tick = len(device.inputs) + 1  # records of a tick
    asks = [ask(draw, made.request(op, place // a_tick)) for op, place in zip(ops, places)]
    for one, place in zip(reversed(asks), reversed(places)):
        records.insert(place, one)
    return whole(device, ticks, records)


class Draws:
    """The draws of the generator: a number that is multiplied and added to, and of which the upper
    half counts.
    """

    def __init__(self, seed: int) -> None:
        self.state = seed

    def next(self) -> int:
        self.state = (self.state * 6364136223846793005 + 1442695040888963407) % (1 << 64)
        return self.state >> 32

    def samples(self, count: int, size: int) -> bytes:
        return b"".join(
            (self.next() % (1 << (8 * size))).to_bytes(size, "big") for _ in range(count)
        )


def generated(ticks: int) -> Measured:
    """Two inputs of 2 and 4 channels, four outputs of 2 in L24, 48 frames a tick, and an activation
    every fourth tick.
    """
    draws = Draws(7)
    inputs = [Port(b"in1", 2, 24, 96, 101), Port(b"in2", 4, 16, 97, 102)]
    outputs = [Port(b"out%d" % n, 2, 24, 98, n, [(255, 0)] * 2) for n in range(1, 5)]
    device = Device(48, 2, inputs, outputs)
    records = []
    for tick in range(ticks):
        for source, port in enumerate(inputs):
            payload = draws.samples(48 * port.channels, WIDTHS[port.bits])
            records.append(packet(source, port, 48 * tick, payload))
        records.append(work(4))
        if tick % 4 == 3:
            output, choice = draws.next() % 4, draws.next() % 3
            cells = [(choice, 0), (choice, 1)] if choice < 2 else [(255, 0)] * 2
            body = bytes([tick // 4 % 4, 0, 1, output, 2])
            body += b"".join(bytes([channel, *cell]) for channel, cell in enumerate(cells))
            records.append(record(b"A", body))
    return whole(device, ticks, records)


CAPTURES: dict[str, Callable[[int], Measured]] = {
    "heavy": heavy,
    "one_frame": one_frame,
    "disturbed": disturbed,
    "requests": requests,
    "requests500": requests500,
    "generated": generated,
}
