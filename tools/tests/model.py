"""What `chanmap serial` makes of a capture, after docs/FORMATS.md and the two pages after it: a
second opinion, for tests.

It is written from those pages alone. It goes through the records one by one and builds each packet
when its claim is made, with the rows known then; the definitions that the proofs stand on take the
whole journal instead.
"""

from __future__ import annotations

import struct
from dataclasses import dataclass
from typing import Optional, Union

from model_api import Api, json_device
from model_book import BILLION, SECONDS, Book, Cell, Device, Misread, Port, Reader, Request
from model_book import read_device, read_request, record, require, wide
from model_http import Doubtful, HttpRequest, HttpStream, refused

__all__ = ["BILLION", "SECONDS", "Doubtful", "Refused", "record", "result"]

STAMPS = 1 << 32  # timestamps are told up to multiples of it
CLIENTS = 16
TICKS = 4096  # the most of a capture
FORMATS = {b"CHMCAP1\n": 1, b"CHMCAP2\n": 2}  # of a capture, by its first bytes
RESULTS = {1: b"CHMRES1\n", 2: b"CHMRES2\n"}
TAGS = {1: b"DJPQATE", 2: b"DJGPQATE"}


class Refused(Exception):
    """The bytes are no capture: the first fault, by its place and its kind."""

    def __init__(self, at: int, kind: str) -> None:
        super().__init__(at, kind)
        self.at = at
        self.kind = kind

    def line(self) -> bytes:
        return f"refused at {self.at}: {self.kind}\n".encode()


def read_rtp(data: bytes) -> Optional[tuple[int, int, bytes]]:
    """Payload type, timestamp and payload of an RTP packet (RFC 3550 section 5.1), or None where
    the bytes are none.
    """
    if len(data) < 12 or data[0] >> 6 != 2:
        return None
    rest = data[12:]
    csrcs = 4 * (data[0] & 15)
    if len(rest) < csrcs:
        return None
    rest = rest[csrcs:]
    if data[0] & 16:
        words = 4 * int.from_bytes(rest[2:4], "big")
        if len(rest) < 4 or len(rest) < 4 + words:
            return None
        rest = rest[4 + words :]
    if data[0] & 32:
        padding = rest[-1] if rest else 0
        if not 1 <= padding <= len(rest):
            return None
        rest = rest[: len(rest) - padding]
    return data[1] & 127, int.from_bytes(data[4:8], "big"), rest


class Arrivals:
    """What an input's packets bring to a session: the samples of its frames, counted from the first
    one.
    """

    def __init__(self, device: Device, port: Port, ticks: int) -> None:
        self.device, self.port, self.ticks = device, port, ticks
        self.frames: dict[int, bytes] = {}
        self.closed = 0  # the ticks, from the first, that take nothing more

    def take(self, data: bytes) -> None:
        """A packet counts where it is one of RTP with the input's type, holds whole frames and at
        least one, and begins before the session's end. The first packet that brings a frame of an
        open tick keeps it. Then ticks close that lie more than `hold` before the packet's last one.
        """
        packet = read_rtp(data)
        size = self.port.channels * self.port.width
        if packet is None or packet[0] != self.port.payload_type or len(packet[2]) % size > 0:
            return
        count = len(packet[2]) // size
        start = (
            packet[1] - self.device.base * self.device.frames + STAMPS // 2
        ) % STAMPS - STAMPS // 2
        if count == 0 or start >= self.ticks * self.device.frames:
            return
        for number in range(max(0, -start), count):
            frame = start + number
            if self.closed <= frame // self.device.frames < self.ticks:
                self.frames.setdefault(frame, packet[2][number * size : number * size + size])
        last = (start + count - 1) // self.device.frames
        self.closed = max(self.closed, min(last - self.device.hold, self.ticks))

    def has_block(self, tick: int) -> bool:
        """Whether a packet brought a frame of the tick."""
        return any(
            frame in self.frames
            for frame in range(tick * self.device.frames, (tick + 1) * self.device.frames)
        )

    def sample(self, frame: int, channel: int) -> int:
        """A sample of 24 bits; silence where no packet brought the frame."""
        width = self.port.width
        data = self.frames.get(frame, bytes(width * self.port.channels))[
            channel * width : channel * width + width
        ]
        return int.from_bytes(data, "big", signed=True) << (8 * (3 - width))


Stamp = tuple[int, int]  # calls and claims
# a plain request, one of a stream, or the status that refuses a stream
Ask = Union[Request, HttpRequest, int]


class Client:
    """A client's stream, and the stamp from which it goes on."""

    def __init__(self) -> None:
        self.stream = HttpStream()
        self.next: Stamp = (0, 0)


class Player:
    """A device at work: its book, what its inputs brought, and the records of the result so far."""

    def __init__(self, device: Device, arrivals: list[Arrivals]) -> None:
        self.device = device
        self.arrivals = arrivals
        self.book = Book(device)
        self.api = Api(device, self.book)
        self.clients = [Client() for _ in range(CLIENTS)]
        self.calls: list[tuple[int, bytes]] = []  # each with its number of claims
        # each with its claims, calls and client
        self.replies: list[tuple[int, int, int, bytes]] = []
        self.claims: list[bytes] = []

    def sample(self, cell: Cell, frame: int) -> int:
        return 0 if cell is None else self.arrivals[cell[0]].sample(frame, cell[1])

    def claim(self) -> None:
        place, output = divmod(len(self.claims), len(self.device.outputs))
        tick, frames = self.device.base + place, self.device.frames
        port = self.device.outputs[output]
        rows = [self.book.row(output, tick * frames + frame) for frame in range(frames)]
        named = {cell[0] for row in rows for cell in row if cell is not None}
        found = bytes(
            source in named and one.has_block(place) for source, one in enumerate(self.arrivals)
        )
        timestamp = tick * frames % STAMPS
        packet = struct.pack(
            ">BBHII", 0x80, port.payload_type, tick % (1 << 16), timestamp, port.ssrc
        )
        for frame, row in enumerate(rows):
            for cell in row:
                sample = self.sample(cell, place * frames + frame) >> (8 * (3 - port.width))
                packet += sample.to_bytes(port.width, "big", signed=True)
        self.claims.append(record(b"C", wide(len(self.claims)) + found + packet))

    def ask(self, client: int, ask: Ask) -> None:
        """A reply has the stamp at which the book was asked; else the one from which its client
        goes on.
        """
        claims, asked = len(self.claims), []

        def book(request: Request) -> bytes:
            calls = self.book.calls
            reply, accepted = self.book.answer(self.device.first(claims), request)
            if accepted is not None:
                self.book.calls += 1
                self.calls.append(
                    (claims, record(b"H", wide(claims) + bytes([client]) + accepted + request.text))
                )
            asked.append((calls, accepted is not None))
            return reply

        if isinstance(ask, Request):
            said = b"\1" + book(ask)
        elif isinstance(ask, HttpRequest):
            said = b"\0" + self.api.answer(ask, self.device.first(claims), book)
        else:
            said = b"\0" + refused(ask)
        one = self.clients[client]
        stamp = one.next
        if asked:
            stamp = asked[0][0], claims
            one.next = asked[0][0] + asked[0][1], claims
        self.replies.append(
            (stamp[1], stamp[0], client, record(b"R", bytes([client]) + wide(*stamp) + said))
        )

    def piece(self, client: int, data: bytes) -> None:
        for ask in self.clients[client].stream.feed(data):
            self.ask(client, ask)

    def result(self) -> bytes:
        """At each number of claims the calls, then the replies, then the claim of that number."""
        parts = [[] for _ in range(len(self.claims) + 1)]
        for claims, text in self.calls:
            parts[claims].append(text)
        for claims, _, _, text in sorted(self.replies, key=lambda reply: reply[:3]):
            parts[claims].append(text)
        for number, text in enumerate(self.claims):
            parts[number].append(text)
        text = b"".join(b"".join(part) for part in parts)
        return RESULTS[self.device.format] + text + record(b"E", b"")


# a number of claims, a client's request, or a piece of its stream
Event = Union[int, tuple[int, Request], tuple[int, bytes]]


@dataclass
class Capture:
    device: Device
    events: list[Event]
    packets: list[tuple[int, bytes]]
    ticks: int


class Records:
    """The records of a capture, one by one, with the first fault and its place."""

    def __init__(self, data: bytes) -> None:
        self.data = data
        if data[:8] not in FORMATS:
            raise Refused(0, "magic")
        self.format = FORMATS[data[:8]]
        self.at = self.behind = 8

    def next(self) -> tuple[bytes, bytes]:
        self.at = self.behind
        head = self.data[self.at : self.at + 5]
        self.behind = self.at + 5 + int.from_bytes(head[1:], "big")
        if len(head) < 5 or self.behind > len(self.data):
            raise Refused(self.at, "cut")
        return head[:1], self.data[self.at + 5 : self.behind]

    def read(self, kind: str, reading, body: bytes):
        try:
            return reading(body)
        except Misread:
            raise Refused(self.at, kind) from None


def read_first(records: Records) -> Device:
    tag, body = records.next()
    readings = {b"D": read_device, b"J": json_device}
    if tag not in readings:
        raise Refused(records.at, "order" if tag in TAGS[records.format] else "tag")
    device = records.read("device", readings[tag], body)
    device.format = records.format
    return device


def read_grain(body: bytes) -> bool:
    require(body in (b"\0", b"\1"))
    return body == b"\1"


def read_item(device: Device, tag: bytes, body: bytes) -> Union[Event, tuple[int, bytes]]:
    text = Reader(body)
    if tag == b"T":
        claims = text.number(4)
        text.end()
        return claims
    number = text.number(1)
    require(number < (len(device.inputs) if tag == b"P" else CLIENTS))
    return number, read_request(body[1:]) if tag == b"A" else body[1:]


def read_capture(data: bytes) -> Capture:
    """The capture. `Refused` where the bytes are none."""
    records = Records(data)
    capture = Capture(read_first(records), [], [], 0)
    tag, body = records.next()
    if records.format == 2 and tag == b"G":
        capture.device.by_frames = records.read("body", read_grain, body)
        tag, body = records.next()
    while tag != b"E":
        if tag not in TAGS[records.format]:
            raise Refused(records.at, "tag")
        if tag not in b"PQAT":
            raise Refused(records.at, "order")
        item = records.read(
            "body", lambda text, tag=tag: read_item(capture.device, tag, text), body
        )
        (capture.packets if tag == b"P" else capture.events).append(item)
        tag, body = records.next()
    if body != b"":
        raise Refused(records.at, "body")
    claims = sum(event for event in capture.events if isinstance(event, int))
    capture.ticks, rest = divmod(claims, len(capture.device.outputs))
    if rest > 0 or capture.ticks > TICKS:
        raise Refused(records.at, "work")
    if records.behind < len(data):
        raise Refused(records.behind, "trailing")
    return capture


def result(data: bytes) -> bytes:
    """The result of a capture. `Refused` where the bytes are none; `Doubtful` where the pages leave
    it open.
    """
    capture = read_capture(data)
    arrivals = [Arrivals(capture.device, port, capture.ticks) for port in capture.device.inputs]
    for source, packet in capture.packets:
        arrivals[source].take(packet)
    player = Player(capture.device, arrivals)
    for event in capture.events:
        if isinstance(event, int):
            for _ in range(event):
                player.claim()
        elif isinstance(event[1], Request):
            player.ask(*event)
        else:
            player.piece(*event)
    return player.result()
