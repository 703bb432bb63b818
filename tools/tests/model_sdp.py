"""A second reader and writer of session descriptions, from docs/FORMATS-SDP.md alone.

`description(data)` is the text that `sdp` writes of a capture with a plain device; `made(text,
frames)` is the capture that `from-sdp` makes of a text, or raises Declined.
"""

from __future__ import annotations

import re
from dataclasses import dataclass
from typing import Optional

NUMBER = re.compile(rb"[0-9]{1,10}\Z")
RATES = (44100, 48000, 96000, 192000)
MOST_PAYLOAD = 1440
STATIC = {10: ("L16", 44100, 2), 11: ("L16", 44100, 1)}
BYTES = {"L16": 2, "L24": 3}
BITS = {"L16": b"\x10", "L24": b"\x18"}


class Declined(Exception):
    """Why no capture is made of a text."""

    def line(self) -> bytes:
        return b"sdp refused: %s\n" % str(self.args[0]).encode()


@dataclass
class Stream:
    port: int
    payload_type: int
    width: str
    hz: int
    channels: int


@dataclass
class Section:
    port: int
    types: list[int]
    formats: dict[int, tuple[str, int, int]]


def number(text: bytes, least: int, most: int) -> Optional[int]:
    if NUMBER.match(text) and least <= int(text) <= most:
        return int(text)
    return None


def lines_of(text: bytes) -> list[bytes]:
    """The lines without their ends; a CR before the end of the text alone is a part of its line."""
    *ended, last = text.split(b"\n")
    lines = [line[:-1] if line.endswith(b"\r") else line for line in ended]
    return [*lines, last] if last else lines


def section_of(words: list[bytes], line: str) -> Optional[Section]:
    """The section that the words of an `m=` line of audio begin, unless another transport does."""
    if len(words) < 4:
        raise Declined(line)
    port = number(words[1].split(b"/")[0], 0, 65535)
    if port is None:
        raise Declined(line)
    if words[2] != b"RTP/AVP":
        return None
    types = [number(word, 0, 127) for word in words[3:]]
    if None in types:
        raise Declined(line)
    return Section(port, types, {})


def note_format(section: Section, value: bytes, line: str) -> None:
    """What the value of an `a=rtpmap:` line gives the section."""
    first, blank, rest = value.partition(b" ")
    payload_type = number(first, 0, 127)
    name, slash, sampling = rest.partition(b"/")
    width = name.upper().decode("latin-1")
    if not blank or not slash or payload_type is None or width not in BYTES:
        return
    rate, more, count = sampling.partition(b"/")
    hz = number(rate, 1, 4294967295)
    channels = number(count, 1, 255) if more else 1
    if hz is None or channels is None:
        raise Declined(line)
    section.formats.setdefault(payload_type, (width, hz, channels))


def sections_of(text: bytes) -> list[Section]:
    sections: list[Section] = []
    inside: Optional[Section] = None
    begun = False
    for place, line in enumerate(lines_of(text), 1):
        if not line:
            continue
        if not begun and line != b"v=0":
            raise Declined("start")
        begun = True
        if not re.match(rb"[a-z]=", line):
            raise Declined(f"line {place}")
        if line.startswith(b"m="):
            words = line[2:].split(b" ")
            inside = section_of(words, f"media {place}") if words[0] == b"audio" else None
            if inside:
                sections.append(inside)
        elif inside and line.startswith(b"a=rtpmap:"):
            note_format(inside, line[len(b"a=rtpmap:") :], f"map {place}")
    if not begun:
        raise Declined("start")
    return sections


def streams_of(text: bytes) -> list[Stream]:
    streams = []
    for section in sections_of(text):
        formats = {**STATIC, **section.formats}
        for payload_type in section.types:
            if payload_type in formats:
                streams.append(Stream(section.port, payload_type, *formats[payload_type]))
                break
    return streams


def is_device(streams: list[Stream], frames: int) -> bool:
    channels = [one.channels for one in streams]
    return (
        streams[0].hz in RATES
        and len(streams) <= 16
        and max(channels) <= 64
        and sum(channels) <= 128
        and all(frames * one.channels * BYTES[one.width] <= MOST_PAYLOAD for one in streams)
    )


def record(tag: bytes, body: bytes) -> bytes:
    return tag + len(body).to_bytes(4, "big") + body


def port_bytes(name: str, place: int, stream: Stream) -> bytes:
    text = b"%s%d" % (name.encode(), place)
    width = BITS[stream.width]
    return bytes([len(text)]) + text + bytes([stream.channels]) + width + bytes([stream.payload_type])


def made(text: bytes, frames: int) -> bytes:
    """The capture that is made of a text, with this many frames a tick."""
    streams = streams_of(text)
    if not streams:
        raise Declined("empty")
    if len({one.hz for one in streams}) > 1:
        raise Declined("rates")
    if not is_device(streams, frames):
        raise Declined("device")
    body = streams[0].hz.to_bytes(4, "big") + frames.to_bytes(2, "big") + bytes(8) + b"\1"
    body += bytes([len(streams)]) * 2
    for place, one in enumerate(streams, 1):
        body += port_bytes("in", place, one) + b"\1\1"
    for place, one in enumerate(streams, 1):
        body += port_bytes("out", place, one) + place.to_bytes(4, "big") + b"\xff"
        body += b"".join(bytes([place - 1, channel]) for channel in range(one.channels))
    return b"CHMCAP2\n" + record(b"D", body) + record(b"E", b"")


# ---- what is written


def milliseconds(micros: int) -> bytes:
    text = b"%d.%03d" % divmod(micros, 1000)
    return text.rstrip(b"0").rstrip(b".")


def description(hz: int, frames: int, outputs: list[Stream]) -> bytes:
    """The text of a device with this rate; a stream tells an output, and its port is not read."""
    lines = [b"v=0", b"o=- 0 0 IN IP4 127.0.0.1", b"s=chanmap", b"c=IN IP4 127.0.0.1", b"t=0 0"]
    for place, one in enumerate(outputs):
        lines.append(b"m=audio %d RTP/AVP %d" % (6004 + 2 * place, one.payload_type))
        told = (one.payload_type, one.width.encode(), hz, one.channels)
        lines.append(b"a=rtpmap:%d %s/%d/%d" % told)
        if frames * 1_000_000 % hz == 0:
            lines.append(b"a=ptime:" + milliseconds(frames * 1_000_000 // hz))
    return b"".join(line + b"\r\n" for line in lines)
