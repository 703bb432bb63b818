"""A capture as a readable text, and back to its bytes.

The text has the lines of `show`, without offsets; tools/README.md tells its short forms. An offset
in front of a line, and the number of a packet's payload bytes, are passed over, so that what `show`
prints of plain packets with all their samples is such a text too.
"""

from __future__ import annotations

import math
import re
from collections.abc import Callable
from dataclasses import dataclass, field
from typing import Optional

from records import http
from records.reading import (
    EVERY_INPUT,
    GRAINS,
    MAGICS,
    NO_INPUT,
    OTHER_ASKS,
    RTP_VERSION,
    UNROUTED,
    Record,
    Values,
    View,
    read,
    samples,
)
from records.words import device_words, input_words, output_words, words_of

# The first bytes of a capture, by its format.
CAPTURE_MAGICS = {form: magic for magic, (kind, form) in MAGICS.items() if kind == "capture"}
TONE_PART_OF_FULL_SCALE = 0.5
MOST_PAYLOAD_TYPE = 127
MARKER_BIT = 128
API = "/x-nmos/channelmapping/v1.0/"
REQUEST = r"client (\d+), ([A-Z]+) (\S+?)(, close)?(?:: (.*))?"
COMMENT = re.compile(r"(^|\s+)#( .*)?$")
ESCAPE = re.compile(r"\\(\\|n|r|t|x[0-9a-f]{2})")
CELL = re.compile(r"(?:(\S+) )?(\d+) <- (?:(unrouted)|(\S+) (\d+))$")


class NotTold(Exception):
    """The capture cannot be told as a text."""


class TextFault(Exception):
    """What is wrong with a line of a text."""


# ---- bytes


def big(number: int, length: int, what: str) -> bytes:
    try:
        return number.to_bytes(length, "big")
    except OverflowError:
        raise TextFault(f"{what} {number} doesn't fit {length * 8} bits") from None


def record_bytes(tag: str, body: bytes) -> bytes:
    return tag.encode("ascii") + big(len(body), 4, "length") + body


def unquoted(text: str) -> bytes:
    """The bytes that `quoted` shows as this text."""
    short = {"\\": b"\\", "n": b"\n", "r": b"\r", "t": b"\t"}
    parts, at = [], 0
    for found in ESCAPE.finditer(text):
        parts.append(text[at : found.start()].encode("utf-8"))
        code = found.group(1)
        parts.append(short.get(code) or bytes([int(code[1:], 16)]))
        at = found.end()
    return b"".join([*parts, text[at:].encode("utf-8")])


# ---- fields of a line


def fields(text: str) -> list[str]:
    return [one for one in re.split(r",\s*", text.strip()) if one]


def number(text: str, what: str) -> int:
    if not re.fullmatch(r"\d+", text):
        raise TextFault(f"{what}: {text!r} is no number")
    return int(text)


def matched(pattern: str, text: str) -> Optional[re.Match[str]]:
    return re.fullmatch(pattern, text)


@dataclass
class TextPort:
    """An input or output as its line tells it."""

    name: str
    channels: int = 1
    bits: int = 16
    payload_type: int = 96
    block_size: int = 1
    reordering: bool = True
    ssrc: int = 1
    routable: Optional[list[str]] = None
    row: dict[int, bytes] = field(default_factory=dict)

    def take(self, text: str) -> None:
        """One field of the line."""
        if found := matched(r"(\d+) channels?", text):
            self.channels = int(found.group(1))
        elif found := matched(r"L(\d+)", text):
            self.bits = int(found.group(1))
        elif found := matched(r"type (\d+)", text):
            self.payload_type = int(found.group(1))
        elif found := matched(r"block size (\d+)", text):
            self.block_size = int(found.group(1))
        elif found := matched(r"(no )?reordering", text):
            self.reordering = found.group(1) is None
        elif found := matched(r"SSRC (\d+)", text):
            self.ssrc = int(found.group(1))
        elif found := matched(r"routable (.+)", text):
            names = found.group(1).split()
            self.routable = {"all": None, "none": []}.get(found.group(1), names)
        else:
            raise TextFault(f"{text!r} is no field of an input or output")

    def front(self) -> bytes:
        """What inputs and outputs begin with alike."""
        name = self.name.encode("utf-8")
        data = big(len(name), 1, "length of id") + name + big(self.channels, 1, "channels")
        return data + big(self.bits, 1, "bits") + big(self.payload_type, 1, "type")


@dataclass
class Writer:
    """A text that is turned into a capture, line by line."""

    format: int = 1
    device: Optional[Values] = None
    inputs: list[TextPort] = field(default_factory=list)
    outputs: list[TextPort] = field(default_factory=list)
    records: bytes = b""
    is_begun: bool = False
    is_ended: bool = False
    is_device_written: bool = False
    is_in_json: bool = False

    # -- names

    def input_number(self, name: str) -> int:
        return port_number(self.inputs, name, "input")

    def output_number(self, name: str) -> int:
        return port_number(self.outputs, name, "output")

    def cell(self, found: re.Match[str]) -> bytes:
        if found.group(3):
            return bytes([UNROUTED, 0])
        source = self.input_number(found.group(4))
        return big(source, 1, "input") + big(int(found.group(5)), 1, "channel")

    # -- the device

    def take_device(self, text: str) -> None:
        if self.device is not None:
            raise TextFault("a second device")
        if text == "JSON" or text.startswith("JSON "):
            self.is_in_json = text == "JSON"
            self.device = {"json": text[len("JSON ") :]}
            return
        values = {"rate": 48000, "frames": 48, "base": 0, "hold": 0}
        for one in fields(text):
            if found := matched(r"(\d+) Hz", one):
                values["rate"] = int(found.group(1))
            elif found := matched(r"(\d+) frames? a tick", one):
                values["frames"] = int(found.group(1))
            elif found := matched(r"(base|hold) (\d+)", one):
                values[found.group(1)] = int(found.group(2))
            elif not matched(r"\d+ (inputs?|outputs?)", one):
                raise TextFault(f"{one!r} is no field of a device")
        self.device = values

    def take_port(self, side: str, name: str, text: str) -> None:
        if self.device is None or "json" in self.device or self.is_device_written:
            raise TextFault(f"an {side} stands right behind its device")
        ports = self.inputs if side == "input" else self.outputs
        front, _, row = text.partition("base row ")
        port = TextPort(name, ssrc=len(ports) + 1)
        for one in fields(front):
            port.take(one)
        for one in fields(row):
            found = CELL.match(one)
            if not found or found.group(1):
                raise TextFault(f"{one!r} is no cell of a base row")
            port.row[int(found.group(2))] = self.cell(found)
        ports.append(port)

    def output_bytes(self, port: TextPort) -> bytes:
        data = port.front() + big(port.ssrc, 4, "SSRC")
        if port.routable is None:
            data += bytes([EVERY_INPUT])
        else:
            data += big(len(port.routable), 1, "number of routable inputs")
            for one in port.routable:
                data += bytes([NO_INPUT if one == "unrouted" else self.input_number(one)])
        if extra := [channel for channel in port.row if channel >= port.channels]:
            raise TextFault(f"the base row of {port.name} has no channel {extra[0]}")
        return data + b"".join(port.row.get(c, bytes([UNROUTED, 0])) for c in range(port.channels))

    def write_device(self) -> None:
        """The device's record, before the first record after it."""
        if self.is_device_written or self.device is None:
            return
        self.is_device_written = True
        values = self.device
        if "json" in values:
            data = unquoted(values["json"])
            self.records += record_bytes("J", data)
            self.learn(http.device(data))
            return
        body = big(values["rate"], 4, "rate") + big(values["frames"], 2, "frames")
        body += big(values["base"], 8, "base") + big(values["hold"], 1, "hold")
        body += big(len(self.inputs), 1, "inputs") + big(len(self.outputs), 1, "outputs")
        for port in self.inputs:
            body += port.front() + big(port.block_size, 1, "block size") + bytes([port.reordering])
        for port in self.outputs:
            body += self.output_bytes(port)
        self.records += record_bytes("D", body)

    def learn(self, said: Optional[Values]) -> None:
        """The ids, widths and rate of a device as JSON."""
        if said is None:
            return
        for ports, side in ((self.inputs, "inputs"), (self.outputs, "outputs")):
            for one in said[side]:
                ports.append(TextPort(one["id"], one["channels"], one["bits"], one["type"]))
        self.device.update({"rate": said["rate"], "frames": said["frames"]})

    # -- the other records

    def take_packet(self, text: str) -> None:
        front, colon, payload = text.partition(":")
        values: dict[str, int] = {}
        source, ticks, is_raw, marker = None, None, False, False
        for one in fields(front):
            if found := matched(r"input (\S+)", one):
                source = self.input_number(found.group(1))
            elif found := matched(r"(type|sequence|timestamp|SSRC) (\d+)", one):
                values[found.group(1)] = int(found.group(2))
            elif found := matched(r"ticks? (\d+)(?:\.\.(\d+))?", one):
                first = int(found.group(1))
                ticks = range(first, int(found.group(2) or first) + 1)
            elif one == "marker":
                marker = True
            elif one == "bytes":
                is_raw = True
            elif not matched(r"\d+ payload bytes?", one):
                raise TextFault(f"{one!r} is no field of a packet")
        if source is None:
            raise TextFault("a packet names its input")
        if is_raw:
            self.records += record_bytes("P", big(source, 1, "input") + hexadecimal(payload))
            return
        for tick in ticks or [None]:
            self.write_packet(source, values, tick, marker, payload)

    def write_packet(
        self, source: int, values: dict[str, int], tick: Optional[int], marker: bool, payload: str
    ) -> None:
        port = self.inputs[source] if source < len(self.inputs) else TextPort("")
        frames = (self.device or {}).get("frames", 0)
        timestamp = values.get("timestamp", (tick or 0) * frames % 2**32)
        payload_type = values.get("type", port.payload_type)
        if payload_type > MOST_PAYLOAD_TYPE:
            raise TextFault(f"type {payload_type} doesn't fit 7 bits")
        head = bytes([RTP_VERSION << 6, payload_type + MARKER_BIT * marker])
        head += big(values.get("sequence", (tick or 0) % 2**16), 2, "sequence")
        head += big(timestamp, 4, "timestamp") + big(values.get("SSRC", source + 1), 4, "SSRC")
        data = self.payload_bytes(payload.strip(), port, timestamp, frames)
        self.records += record_bytes("P", big(source, 1, "input") + head + data)

    def payload_bytes(self, text: str, port: TextPort, first: int, frames: int) -> bytes:
        """Samples in hexadecimal, `silence`, or `tone` with a frequency for each channel."""
        if text == "silence":
            return bytes(frames * port.channels * port.bits // 8)
        if not text.startswith("tone"):
            return hexadecimal(text)
        pitches = [float(one) for one in re.findall(r"\d+(?:\.\d+)?", text)]
        if not pitches:
            raise TextFault("a tone has a frequency")
        rate = (self.device or {}).get("rate", 1)
        scale = TONE_PART_OF_FULL_SCALE * 2 ** (port.bits - 1)
        data = b""
        for frame in range(first, first + frames):
            for channel in range(port.channels):
                pitch = pitches[min(channel, len(pitches) - 1)]
                sample = round(scale * math.sin(2 * math.pi * pitch * frame / rate))
                data += sample.to_bytes(port.bits // 8, "big", signed=True)
        return data

    def take_grain(self, text: str) -> None:
        grains = {words: bytes([number]) for number, words in GRAINS.items()}
        if self.format == 1:
            raise TextFault("a grain stands in a capture of format 2")
        if text not in grains:
            raise TextFault(f"{text!r} is no grain")
        self.records += record_bytes("G", grains[text])

    def take_work(self, text: str) -> None:
        found = matched(r"(\d+) (claims?|ticks?)", text.strip())
        if not found:
            raise TextFault(f"{text.strip()!r} is no number of claims or ticks")
        count = int(found.group(1))
        count *= len(self.outputs) if found.group(2).startswith("tick") else 1
        self.records += record_bytes("T", big(count, 4, "claims"))

    def take_request(self, text: str) -> None:
        found = matched(r"client (\d+), (.*)", text.strip())
        if not found:
            raise TextFault("a request begins with its client")
        body = big(int(found.group(1)), 1, "client") + self.request(found.group(2))
        self.records += record_bytes("A", body)

    def request(self, text: str) -> bytes:
        asks = {words: bytes([op]) for op, words in OTHER_ASKS.items()}
        if text in asks:
            return asks[text]
        if found := matched(r"deletion of id (\d+)", text):
            return b"\3" + big(int(found.group(1)), 8, "id")
        if found := matched(r"activation at once: (.*)", text):
            return b"\0" + self.action(found.group(1))
        if found := matched(r"activation (at|after) (\d+):(\d+): (.*)", text):
            seconds, nanoseconds = int(found.group(2)), int(found.group(3))
            when = big(seconds, 8, "seconds") + big(nanoseconds, 4, "nanoseconds")
            return (b"\1" if found.group(1) == "at" else b"\2") + when + self.action(found.group(4))
        raise TextFault(f"{text!r} is no request")

    def action(self, text: str) -> bytes:
        """Cells of one output that stand together are one change."""
        changes: list[tuple[int, list[bytes]]] = []
        for one in [] if text == "no output" else fields(text):
            if found := matched(r"(\S+) as it is", one):
                changes.append((self.output_number(found.group(1)), []))
                continue
            cell = CELL.match(one)
            if not cell or not cell.group(1):
                raise TextFault(f"{one!r} is no change of an output")
            output = self.output_number(cell.group(1))
            if not changes or changes[-1][0] != output or not changes[-1][1]:
                changes.append((output, []))
            changes[-1][1].append(big(int(cell.group(2)), 1, "channel") + self.cell(cell))
        data = big(len(changes), 1, "number of outputs")
        for output, cells in changes:
            data += big(output, 1, "output") + big(len(cells), 1, "number of channels")
            data += b"".join(cells)
        return data

    def take_stream(self, text: str) -> None:
        found = matched(r"client (\d+), (.*)", text)
        if not found:
            raise TextFault("a stream begins with its client")
        body = big(int(found.group(1)), 1, "client") + unquoted(found.group(2))
        self.records += record_bytes("Q", body)

    def take_http(self, text: str) -> None:
        """A whole request in one piece; a target without a slash in front is one of the API."""
        found = matched(REQUEST, text)
        if not found:
            raise TextFault("a request of HTTP has a client, a method and a target")
        target = found.group(3) if found.group(3).startswith("/") else API + found.group(3)
        body = unquoted(found.group(5) or "")
        head = f"{found.group(2)} {target} HTTP/1.1\r\nHost: chanmap\r\n"
        head += f"Content-Length: {len(body)}\r\n" if body else ""
        head += "Connection: close\r\n" if found.group(4) else ""
        data = big(int(found.group(1)), 1, "client") + head.encode("utf-8") + b"\r\n" + body
        self.records += record_bytes("Q", data)

    # -- lines

    def begin(self, text: str) -> None:
        """The first line, which tells the format; else it is 1."""
        formats = {"": 1, **{f"format {number}": number for number in CAPTURE_MAGICS}}
        if text not in formats:
            raise TextFault(f"{text!r} is no format of a capture")
        self.format = formats[text]
        self.is_begun = True

    def take_line(self, line: str) -> None:
        if self.is_ended:
            raise TextFault("a line behind the end")
        if self.is_in_json and line.startswith(" "):
            self.device["json"] += f"{line.strip()}\n"
            return
        self.is_in_json = False
        found = matched(r"(?:\s*\d+ )?\s*(\w+)(?: (.*))?", line)
        word, text = (found.group(1), found.group(2) or "") if found else ("", "")
        if word == "capture" and not self.is_begun:
            self.begin(text.strip())
            return
        if not self.is_begun:
            raise TextFault("a text begins with the line `capture`")
        if word in ("input", "output"):
            port = matched(r"(\S+): ?(.*)", text)
            if not port:
                raise TextFault(f"an {word} has an id and a colon")
            self.take_port(word, port.group(1), port.group(2))
            return
        if word == "device":
            self.take_device(text.strip())
            return
        takers: dict[str, Callable[[str], None]] = {
            "grain": self.take_grain,
            "packet": self.take_packet,
            "work": self.take_work,
            "request": self.take_request,
            "stream": lambda behind: self.take_stream(behind.lstrip(" ")),
            "http": self.take_http,
            "end": lambda behind: None,
        }
        if word not in takers:
            raise TextFault(f"{word!r} is no record of a capture")
        self.write_device()
        takers[word](text.strip() if word != "stream" else text)
        self.is_ended = word == "end"


def port_number(ports: list[TextPort], name: str, side: str) -> int:
    """The number of an id, or the one after a hash."""
    if found := matched(r"#(\d+)", name):
        return int(found.group(1))
    for place, port in enumerate(ports):
        if port.name == name:
            return place
    raise TextFault(f"there is no {side} {name}")


def hexadecimal(text: str) -> bytes:
    try:
        return bytes.fromhex(text.replace("|", " "))
    except ValueError:
        raise TextFault(f"{text.strip()!r} is not hexadecimal") from None


def uncommented(line: str) -> str:
    """A line without what follows a hash and a space; a text in a record may have both."""
    if re.match(r"[\d ]*(stream|http|device +JSON) ", line):
        return line
    return COMMENT.sub("", line).rstrip()


def capture_of(text: str) -> bytes:
    """The capture that a text tells. Empty lines and comments are passed over."""
    writer = Writer()
    for place, line in enumerate(text.splitlines(), start=1):
        line = line.rstrip() if writer.is_in_json and line.startswith(" ") else uncommented(line)
        if not line:
            continue
        try:
            writer.take_line(line)
        except TextFault as fault:
            raise TextFault(f"line {place}: {fault}") from None
    if not writer.is_begun:
        raise TextFault("a text begins with the line `capture`")
    try:
        writer.write_device()
    except TextFault as fault:
        raise TextFault(f"the device: {fault}") from None
    return CAPTURE_MAGICS[writer.format] + writer.records + record_bytes("E", b"")


# ---- from bytes to text


def packet_line(values: Values) -> str:
    """In words where the head is a plain one and the samples are whole, else in bytes."""
    frames = samples(values) if "payload" in values else None
    plain = frames is not None and not values["csrcs"] and not values["padding_bytes"]
    if not plain or values["extension_words"] is not None or not all_whole(values):
        return ""
    size, channels = values["sample_bytes"], values["channels"]
    data = bytes.fromhex(values["payload"])
    words = [data[at : at + size].hex() for at in range(0, len(data), size)]
    parts = [" ".join(words[at : at + channels]) for at in range(0, len(words), channels)]
    keys = ("type", "sequence", "timestamp", "SSRC")
    head = ", ".join(f"{key} {values[key.lower()]}" for key in keys)
    marker = ", marker" if values["marker"] else ""
    return f"input {values['input']}, {head}{marker}: {' | '.join(parts)}"


def all_whole(values: Values) -> bool:
    return len(values["payload"]) // 2 % values["sample_bytes"] == 0


def record_lines(record: Record, data: bytes) -> list[str]:
    if record.kind == "device" and "json" not in record.values:
        lines = device_words(record.values).splitlines()[:1]
        lines += [f"    {input_words(one)}" for one in record.values["inputs"]]
        lines += [f"    {output_words(one)}" for one in record.values["outputs"]]
        return [f"device   {lines[0]}", *lines[1:]]
    if record.kind == "device":
        return [f"device   JSON {record.values['json']}"]
    if record.kind == "stream":
        return [f"stream   client {record.values['client']}, {record.values['text']}"]
    if record.kind == "packet":
        words = packet_line(record.values)
        if not words:
            body = int.from_bytes(data[record.at + 1 : record.at + 5], "big")
            raw = data[record.at + 6 : record.at + 5 + body].hex()
            words = f"input {record.values['input']}, bytes: {raw}"
        return [f"packet   {words}"]
    words = words_of(record)
    return [f"{record.kind:<8} {words}" if words else record.kind]


def text_of(data: bytes) -> list[str]:
    """The lines of a capture's text, from which its bytes are made again."""
    view = View()
    records = list(read(data, view))
    if view.faults or any(record.kind == "result" for record in records):
        raise NotTold("only a whole capture is told as a text")
    lines = [line for record in records for line in record_lines(record, data)]
    try:
        again = capture_of("\n".join(lines))
    except TextFault as fault:
        raise NotTold(f"this capture can't be told as a text: {fault}") from None
    if again != data:
        raise NotTold("this capture can't be told as a text: its ids, order or fields are unusual")
    return lines
