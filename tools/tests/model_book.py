"""The device, its rows and the book of activations, after docs/FORMATS.md: the lower part of
model.py.
"""

from __future__ import annotations

from dataclasses import dataclass, field
from typing import Optional

RATES = (44100, 48000, 96000, 192000)
SECONDS = 1 << 40  # the end of time
BILLION = 1_000_000_000  # nanoseconds of a second
PAST_BASE = 1 << 23  # as many ticks from the first one start before it
WIDTHS = {16: 2, 24: 3}  # the bytes of a sample, by its bits
ID_BYTES = frozenset(b"0123456789ABCDEFGHIJKLMNOPQRSTUVWXYZabcdefghijklmnopqrstuvwxyz-_")
Cell = Optional[tuple[int, int]]  # an input and its channel, or unrouted
Row = list[Cell]
Changes = dict[int, dict[int, Cell]]  # the cells that an activation sets, by output and channel
Time = tuple[int, int]  # seconds and nanoseconds


class Misread(Exception):
    """A body has no reading, or says what cannot be."""


def require(holds: bool) -> None:
    if not holds:
        raise Misread


class Reader:
    """Bytes that are read from the front."""

    def __init__(self, data: bytes) -> None:
        self.data = data
        self.at = 0

    def take(self, count: int) -> bytes:
        require(self.at + count <= len(self.data))
        self.at += count
        return self.data[self.at - count : self.at]

    def number(self, length: int) -> int:
        return int.from_bytes(self.take(length), "big")

    def cell(self) -> Cell:
        source, channel = self.number(1), self.number(1)
        require(source != 255 or channel == 0)
        return None if source == 255 else (source, channel)

    def end(self) -> None:
        require(self.at == len(self.data))


@dataclass
class Texts:
    """What is told of an input or output besides its id; a plain device tells none of it."""

    name: str
    labels: list[str]
    description: str = ""
    parent: Optional[tuple[str, str]] = None  # of an input: `source` or `receiver`, and a UUID
    source: Optional[str] = None  # of an output: a UUID


@dataclass
class Port:
    """An input, or an output with its base row."""

    name: bytes
    channels: int
    width: int
    payload_type: int
    block: int = 1
    reorders: bool = True
    ssrc: int = 0
    # inputs, and None for unrouted; all without a list
    routable: Optional[list[Optional[int]]] = None
    row: Row = field(default_factory=list)
    told: Optional[Texts] = None

    @property
    def id(self) -> str:
        return self.name.decode("ascii")

    @property
    def texts(self) -> Texts:
        return self.told or Texts(self.id, [str(channel + 1) for channel in range(self.channels)])


@dataclass
class Device:
    hz: int
    frames: int
    base: int
    hold: int
    inputs: list[Port]
    outputs: list[Port]
    format: int = 1  # of the capture that tells the device
    by_frames: bool = False  # the grain: changes at a time count from a frame, else from a tick

    def start(self, position: int) -> int:
        """When a frame, counted from TAI 0, starts, in nanoseconds, rounded down."""
        return position * BILLION // self.hz

    def up(self, nanos: int) -> int:
        """The first frame that starts at a time or later; without the grain of frames the first one
        of a tick.
        """
        step = 1 if self.by_frames else self.frames
        return -(-nanos * self.hz // (step * BILLION)) * step

    def first(self, claims: int) -> int:
        """The first frame of the first tick of which nothing is claimed."""
        return (self.base - (-claims // len(self.outputs))) * self.frames

    def moment(self, position: int) -> bytes:
        """The tick of a frame, and in format 2 its place in the tick."""
        tick, offset = divmod(position, self.frames)
        return wide(tick) + (offset.to_bytes(2, "big") if self.format == 2 else b"")

    def fault(self, output: int, row: Row) -> Optional[bytes]:
        """Why a row cannot be an output's: a check, 1 to 5, and its lowest failing channel."""
        for check in (
            self.unknown_input,
            self.unknown_channel,
            self.not_routable,
            self.broken_block,
            self.out_of_order,
        ):
            channel = check(output, row)
            if channel is not None:
                return bytes([check.number, channel])
        return None

    def unknown_input(self, output: int, row: Row) -> Optional[int]:
        return lowest(
            channel for channel, cell in enumerate(row) if cell and cell[0] >= len(self.inputs)
        )

    def unknown_channel(self, output: int, row: Row) -> Optional[int]:
        return lowest(
            channel
            for channel, cell in enumerate(row)
            if cell and cell[1] >= self.inputs[cell[0]].channels
        )

    def not_routable(self, output: int, row: Row) -> Optional[int]:
        allowed = self.outputs[output].routable
        if allowed is None:
            return None
        return lowest(
            channel
            for channel, cell in enumerate(row)
            if (cell[0] if cell else None) not in allowed
        )

    def pieces(self, row: Row) -> list[tuple[Port, list[int]]]:
        """The output channels that name an input, in pieces of its block size."""
        found = []
        for number, port in enumerate(self.inputs):
            named = [channel for channel, cell in enumerate(row) if cell and cell[0] == number]
            found += [
                (port, named[at : at + port.block]) for at in range(0, len(named), port.block)
            ]
        return found

    def broken_block(self, output: int, row: Row) -> Optional[int]:
        broken = []
        for port, piece in self.pieces(row):
            named = sorted(row[channel][1] for channel in piece)
            start = named[0] // port.block * port.block
            whole = piece == list(range(piece[0], piece[0] + port.block))
            if not whole or named != list(range(start, start + port.block)):
                broken.append(piece[0])
        return lowest(broken)

    def out_of_order(self, output: int, row: Row) -> Optional[int]:
        return lowest(
            piece[0]
            for port, piece in self.pieces(row)
            if not port.reorders and [row[channel][1] for channel in piece] != sorted(
                row[channel][1] for channel in piece
            )
        )

    unknown_input.number, unknown_channel.number, not_routable.number = 1, 2, 3
    broken_block.number, out_of_order.number = 4, 5


def lowest(channels) -> Optional[int]:
    return min(channels, default=None)


def read_port(body: Reader, output: bool) -> Port:
    port = Port(
        body.take(body.number(1)), body.number(1), WIDTHS.get(body.number(1), 0), body.number(1)
    )
    if output:
        port.ssrc = body.number(4)
        members = body.number(1)
        if members != 255:
            port.routable = [None if member == 254 else member for member in body.take(members)]
        port.row = [body.cell() for _ in range(port.channels)]
    else:
        port.block, reorders = body.number(1), body.number(1)
        require(reorders <= 1)
        port.reorders = reorders == 1
    return port


def check_port(port: Port) -> None:
    require(1 <= len(port.name) <= 32 and ID_BYTES.issuperset(port.name))
    require(1 <= port.channels <= 64 and port.width > 0 and port.payload_type <= 127)
    require(port.block > 0 and port.channels % port.block == 0)


def check_device(device: Device) -> None:
    """The limits of a device and its base rows."""
    require(device.hz in RATES and 1 <= device.frames <= 240 and device.hold <= 64)
    require((device.base + PAST_BASE) * device.frames < device.hz * SECONDS)
    require(len(device.inputs) <= 16 and 1 <= len(device.outputs) <= 64)
    for ports in (device.inputs, device.outputs):
        for port in ports:
            check_port(port)
        require(len({port.name for port in ports}) == len(ports))
    require(sum(port.channels for port in device.inputs) <= 128)
    for output, port in enumerate(device.outputs):
        require(device.frames * port.channels * port.width <= 1440)
        require(
            all(member is None or member < len(device.inputs) for member in port.routable or [])
        )
        require(len(port.row) == port.channels and device.fault(output, port.row) is None)


def read_device(data: bytes) -> Device:
    body = Reader(data)
    head = body.number(4), body.number(2), body.number(8), body.number(1)
    counts = body.number(1), body.number(1)
    inputs = [read_port(body, False) for _ in range(counts[0])]
    device = Device(*head, inputs, [read_port(body, True) for _ in range(counts[1])])
    body.end()
    check_device(device)
    return device


@dataclass
class Request:
    """What a client asks: its bytes, an op, and what follows it."""

    text: bytes
    op: int
    time: Time = (0, 0)
    changes: Changes = field(default_factory=dict)
    id: int = 0

    @property
    def nanos(self) -> int:
        return self.time[0] * BILLION + self.time[1]

    @property
    def when(self) -> bytes:
        """The op with its time, in bytes."""
        return self.text[: 1 if self.op == 0 else 13]

    @property
    def action(self) -> bytes:
        return self.text[len(self.when) :]


def read_changes(body: Reader) -> Changes:
    changes: Changes = {}
    for _ in range(body.number(1)):
        output = body.number(1)
        require(max(changes, default=-1) < output)
        changes[output] = {}
        for _ in range(body.number(1)):
            channel = body.number(1)
            require(max(changes[output], default=-1) < channel)
            changes[output][channel] = body.cell()
    return changes


def read_request(text: bytes) -> Request:
    body = Reader(text)
    request = Request(text, body.number(1))
    require(request.op <= 5)
    if request.op in (1, 2):
        request.time = body.number(8), body.number(4)
        require(request.time[0] < SECONDS and request.time[1] < BILLION)
    if request.op <= 2:
        request.changes = read_changes(body)
    if request.op == 3:
        request.id = body.number(8)
    body.end()
    return request


def record(tag: bytes, body: bytes) -> bytes:
    return tag + len(body).to_bytes(4, "big") + body


def wide(*numbers: int) -> bytes:
    return b"".join(number.to_bytes(8, "big") for number in numbers)


def cell_bytes(cell: Cell) -> bytes:
    return b"\xff\0" if cell is None else bytes(cell)


@dataclass
class Call:
    """An accepted activation."""

    id: int
    position: int  # the frame from which it counts, from TAI 0
    request: Request
    deleted: bool = False


class Book:
    """The rows of a device by frame, counted from TAI 0, and the activations that were accepted."""

    def __init__(self, device: Device) -> None:
        self.device = device
        self.rows = [[(device.first(0), output.row)] for output in device.outputs]
        self.accepted: list[Call] = []
        self.calls = 0

    def row(self, output: int, position: int) -> Row:
        return [row for start, row in self.rows[output] if start <= position][-1]

    def shown(self, call: Call) -> bytes:
        return wide(call.id) + call.request.when + self.device.moment(call.position)

    def pending(self, first: int) -> list[Call]:
        return [
            call
            for call in self.accepted
            if call.request.op > 0 and call.position > first and not call.deleted
        ]

    def land(self, first: int, request: Request) -> Optional[int]:
        """The frame from which an activation counts; None past the end of time."""
        start = self.device.start(first) if request.op == 2 else 0
        if start + request.nanos >= SECONDS * BILLION:
            return None
        at = first if request.op == 0 else max(first, self.device.up(start + request.nanos))
        return at if self.device.start(at) < SECONDS * BILLION else None

    def refusal(self, first: int, request: Request, rows: dict[int, Row]) -> Optional[bytes]:
        """The first reason why an activation is not accepted, as it stands in a reply."""
        outputs = self.device.outputs
        if not request.changes:
            return b"\x10"
        for output in request.changes:
            if output >= len(outputs):
                return bytes([0x11, output])
        for output, cells in request.changes.items():
            for channel in cells:
                if channel >= outputs[output].channels:
                    return bytes([0x12, output, channel])
        held = {output for call in self.pending(first) for output in call.request.changes}
        for output in request.changes:
            if output in held:
                return bytes([0x13, output])
        for output, cells in request.changes.items():
            rows[output] = [
                cells.get(channel, cell) for channel, cell in enumerate(self.row(output, first))
            ]
            fault = self.device.fault(output, rows[output])
            if fault is not None:
                return bytes([0x14, output]) + fault
        if self.land(first, request) is None:
            return b"\x15"
        return None

    def activate(self, first: int, request: Request) -> tuple[bytes, Optional[bytes]]:
        """The reply, and what an accepted call's record tells: id and moment."""
        rows: dict[int, Row] = {}
        refused = self.refusal(first, request, rows)
        if refused is not None:
            return refused, None
        call = Call(len(self.accepted) + 1, self.land(first, request), request)
        self.accepted.append(call)
        for output, row in rows.items():
            self.rows[output].append((call.position, row))
        told = wide(call.id) + self.device.moment(call.position)
        return (b"\0" if request.op == 0 else b"\1") + told, told

    def delete(self, first: int, request: Request) -> tuple[bytes, Optional[bytes]]:
        for call in self.pending(first):
            if call.id == request.id:
                for output in call.request.changes:
                    self.rows[output].append((call.position, self.row(output, first)))
                call.deleted = True
                return b"\2" + wide(call.id), wide(0) + self.device.moment(call.position)
        return b"\x16" + wide(request.id), None

    def last(self, first: int) -> Optional[Call]:
        """The activation that counted last."""
        passed = [call for call in self.accepted if call.position <= first and not call.deleted]
        return max(passed, key=lambda call: (call.position, call.id), default=None)

    def active(self, first: int) -> bytes:
        last = self.last(first)
        rows = [self.row(output, first) for output in range(len(self.device.outputs))]
        return (
            b"\3"
            + (b"\1" + self.shown(last) if last else b"\0")
            + b"".join(cell_bytes(cell) for row in rows for cell in row)
        )

    def answer(self, first: int, request: Request) -> tuple[bytes, Optional[bytes]]:
        if request.op <= 2:
            return self.activate(first, request)
        if request.op == 3:
            return self.delete(first, request)
        if request.op == 4:
            return self.active(first), None
        items = self.pending(first)
        return bytes([4, len(items)]) + b"".join(
            self.shown(call) + call.request.action for call in items
        ), None
