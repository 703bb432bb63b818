"""Reads captures and results into records, whose values are told by names.

A record's values are plain: numbers, texts, lists, dictionaries. Inputs and outputs are told by
their ids, or by their numbers after a hash where no id is known.
"""

from __future__ import annotations

from collections.abc import Callable, Generator, Iterator
from dataclasses import dataclass, field
from typing import Any, Optional

from records import http

# The first bytes of a text: its kind and its format.
MAGICS = {
    b"CHMCAP1\n": ("capture", 1),
    b"CHMCAP2\n": ("capture", 2),
    b"CHMRES1\n": ("result", 1),
    b"CHMRES2\n": ("result", 2),
}
MAGIC_LENGTH = 8
RECORD_HEAD_LENGTH = 5
END_TAG = ord("E")
GRAIN_TAG = ord("G")  # in captures of format 2 alone

UNROUTED = 0xFF
EVERY_INPUT = 0xFF
NO_INPUT = 0xFE

GRAINS = {0: "tick", 1: "frame"}

RTP_VERSION = 2
RTP_HEAD_LENGTH = 12

Values = dict[str, Any]


class Fault(Exception):
    """What is wrong with a record: the kind, and what was found."""


class Fields:
    """The bytes of a body of a format, taken field by field; `at` is the offset of those that are
    left.
    """

    def __init__(self, body: bytes, at: int = 0, text_format: int = 1) -> None:
        self.left = body
        self.at = at
        self.format = text_format

    def take(self, length: int) -> bytes:
        if length > len(self.left):
            raise Fault("wrong length", f"field of {length} at {self.at}, {len(self.left)} there")
        taken, self.left = self.left[:length], self.left[length:]
        self.at += length
        return taken

    def number(self, length: int = 1) -> int:
        return int.from_bytes(self.take(length), "big")

    def rest(self) -> bytes:
        return self.take(len(self.left))

    def moment(self) -> Values:
        """A tick, and the frame of it from which something counts, where the format tells it."""
        tick = {"tick": self.number(8)}
        return tick if self.format == 1 else {**tick, "frame": self.number(2)}


@dataclass(frozen=True)
class Port:
    """What later records need of an input or an output."""

    name: str
    channels: int
    bits: int

    @property
    def sample_bytes(self) -> int:
        return self.bits // 8


@dataclass
class Device:
    """What later records need of a device. One without outputs is not known."""

    base: int = 0
    frames: int = 0
    inputs: list[Port] = field(default_factory=list)
    outputs: list[Port] = field(default_factory=list)
    rate: int = 0

    @property
    def is_known(self) -> bool:
        return bool(self.outputs)


@dataclass
class Record:
    """A record, or the magic of a text (kind capture or result), or a fault (kind fault)."""

    at: int
    kind: str
    values: Values

    def as_json(self) -> Values:
        return {"at": self.at, "record": self.kind, **self.values}


@dataclass
class View:
    """The device told last, the format of the text that is read, and the faults so far."""

    device: Device = field(default_factory=Device)
    format: int = 1
    faults: list[Record] = field(default_factory=list)

    def fault(self, at: int, kind: str, found: str) -> Record:
        self.faults.append(Record(at, "fault", {"fault": kind, "found": found}))
        return self.faults[-1]


def quoted(text: bytes) -> str:
    """A text on one line: a backslash, and each byte of what cannot be printed, is an escape."""
    decoded = text.replace(b"\\", b"\\\\").decode("utf-8", "backslashreplace")
    return "".join(char if char.isprintable() else escaped(char) for char in decoded)


def escaped(char: str) -> str:
    short = {"\n": "\\n", "\r": "\\r", "\t": "\\t"}
    return short.get(char) or "".join(f"\\x{byte:02x}" for byte in char.encode("utf-8"))


def counted(count: int, one: str) -> str:
    return f"{count} {one}" if count == 1 else f"{count} {one}s"


def chosen(choices: dict[int, Any], number: int, what: str) -> Any:
    if number not in choices:
        raise Fault("unknown", f"{what} {number:02x}")
    return choices[number]


def name(ports: list[Port], number: int) -> str:
    """The id, or the number after a hash where no id is known."""
    return ports[number].name if number < len(ports) else f"#{number}"


# ---- packets (RFC 3550, section 5.1)


def rtp_packet(fields: Fields) -> tuple[Values, bytes]:
    """The head of the packet that is left, and its payload."""
    first, second = fields.number(), fields.number()
    if first >> 6 != RTP_VERSION:
        raise Fault("unknown", f"RTP version {first >> 6}")
    head: Values = {
        "type": second & 0x7F,
        "sequence": fields.number(2),
        "timestamp": fields.number(4),
        "ssrc": fields.number(4),
        "marker": bool(second & 0x80),
        "csrcs": [],
        "extension_words": None,
        "padding_bytes": 0,
    }
    head["csrcs"] = [fields.number(4) for _ in range(first & 0x0F)]
    if first & 0x10:
        head["extension_words"] = fields.number(4) & 0xFFFF
        fields.take(4 * head["extension_words"])
    payload = fields.rest()
    if first & 0x20:
        padding = payload[-1] if payload else 0
        if not 1 <= padding <= len(payload):
            raise Fault("wrong length", f"padding of {padding} bytes, {len(payload)} there")
        payload = payload[:-padding]
        head["padding_bytes"] = padding
    return head, payload


def packet(fields: Fields, port: Optional[Port]) -> Values:
    """The head and the payload; `sample_bytes` and `channels` where they are known."""
    head, payload = rtp_packet(fields)
    known = {"channels": port.channels, "sample_bytes": port.sample_bytes} if port else {}
    return {**head, "payload": payload.hex(), **known}


# ---- devices, rows, requests


def cell(fields: Fields, device: Device) -> Optional[Values]:
    """An input and its channel, or None for unrouted."""
    number, channel = fields.number(), fields.number()
    if number != UNROUTED:
        return {"input": name(device.inputs, number), "channel": channel}
    return chosen({0: None}, channel, "cell ff")


def row(fields: Fields, device: Device, channels: int) -> list[Optional[Values]]:
    return [cell(fields, device) for _ in range(channels)]


def port(fields: Fields, ports: list[Port]) -> Values:
    """What inputs and outputs begin with alike; the port is put after the others."""
    at = fields.at
    one = Port(quoted(fields.take(fields.number())), fields.number(), fields.number())
    ports.append(one)
    return {
        "at": at,
        "id": one.name,
        "channels": one.channels,
        "bits": one.bits,
        "type": fields.number(),
    }


def input_port(fields: Fields, device: Device) -> Values:
    values = port(fields, device.inputs)
    values["block_size"] = fields.number()
    values["reordering"] = chosen({0: False, 1: True}, fields.number(), "reordering")
    return values


def output_port(fields: Fields, device: Device) -> Values:
    values = port(fields, device.outputs)
    values["ssrc"], values["routable"] = fields.number(4), None
    if (count := fields.number()) != EVERY_INPUT:
        names = {NO_INPUT: None}
        values["routable"] = [names.get(m, name(device.inputs, m)) for m in fields.take(count)]
    values["row"] = row(fields, device, device.outputs[-1].channels)
    return values


def device_record(fields: Fields, view: View) -> Values:
    rate, device = fields.number(4), Device(frames=fields.number(2), base=fields.number(8))
    device.rate = rate
    values: Values = {"rate": rate, "frames": device.frames, "base": device.base}
    values["hold"] = fields.number()
    counts = fields.number(), fields.number()
    values["inputs"] = [input_port(fields, device) for _ in range(counts[0])]
    values["outputs"] = [output_port(fields, device) for _ in range(counts[1])]
    view.device = device
    return values


def json_device(fields: Fields, view: View) -> Values:
    """The text; and what it says, where that can be shown line by line."""
    data = fields.rest()
    values, said = {"json": quoted(data)}, http.device(data)
    if said is None:
        return values
    ports = {
        side: [Port(quoted(one["id"].encode()), one["channels"], one["bits"]) for one in said[side]]
        for side in ("inputs", "outputs")
    }
    view.device = Device(said["base"], said["frames"], rate=said["rate"], **ports)
    return {**values, **said}


def action(fields: Fields, device: Device) -> list[Values]:
    """What is changed of each output: the channels with their cells."""
    changes = []
    for _ in range(fields.number()):
        output, count = name(device.outputs, fields.number()), fields.number()
        cells = [{"channel": fields.number(), "cell": cell(fields, device)} for _ in range(count)]
        changes.append({"output": output, "cells": cells})
    return changes


MODES = {0: "at once", 1: "at", 2: "after"}
OTHER_ASKS = {4: "reading of the active map", 5: "reading of the pending activations"}


def when(fields: Fields, op: int) -> Values:
    mode = chosen(MODES, op, "op")
    if op == 0:
        return {"mode": mode}
    return {"mode": mode, "time": f"{fields.number(8)}:{fields.number(4)}"}


def request(fields: Fields, device: Device) -> Values:
    op = fields.number()
    if op == 3:
        return {"ask": "deletion", "deletes": fields.number(8)}
    if op in OTHER_ASKS:
        return {"ask": OTHER_ASKS[op]}
    return {"ask": "activation", **when(fields, op), "action": action(fields, device)}


# ---- replies


def dated(fields: Fields) -> Values:
    return {"id": fields.number(8), **when(fields, fields.number()), **fields.moment()}


def active(fields: Fields, device: Device) -> Values:
    there = chosen({0: False, 1: True}, fields.number(), "presence")
    values: Values = {"activation": dated(fields) if there else None}
    if device.is_known:
        values["rows"] = {o.name: row(fields, device, o.channels) for o in device.outputs}
    else:
        values["bytes"] = fields.rest().hex()
    return values


def pending(fields: Fields, device: Device) -> Values:
    items = [{**dated(fields), "action": action(fields, device)} for _ in range(fields.number())]
    return {"items": items}


def at_output(fields: Fields, device: Device) -> Values:
    return {"output": name(device.outputs, fields.number())}


ROW_FAULTS = ("no input", "no input channel", "not routable", "block not whole", "block reordered")
CHECKS = dict(enumerate(ROW_FAULTS, start=1))


def row_fault(fields: Fields, device: Device) -> Values:
    values = at_output(fields, device)
    values["check"] = chosen(CHECKS, fields.number(), "check")
    return {**values, "channel": fields.number()}


# Each code with the word of its reply and what follows it.
REPLIES: dict[int, tuple[str, Callable[[Fields, Device], Values]]] = {
    0x00: ("activated", lambda f, d: {"id": f.number(8), **f.moment()}),
    0x01: ("scheduled", lambda f, d: {"id": f.number(8), **f.moment()}),
    0x02: ("deleted", lambda f, d: {"id": f.number(8)}),
    0x03: ("active", active),
    0x04: ("pending", pending),
    0x10: ("no output named", lambda f, d: {}),
    0x11: ("unknown output", at_output),
    0x12: ("no such channel", lambda f, d: {**at_output(f, d), "channel": f.number()}),
    0x13: ("output locked", at_output),
    0x14: ("row", row_fault),
    0x15: ("time out of range", lambda f, d: {}),
    0x16: ("not pending", lambda f, d: {"id": f.number(8)}),
}
FORMS = {0: "HTTP", 1: "plain"}


def reply(fields: Fields, device: Device) -> Values:
    if chosen(FORMS, fields.number(), "form") == "HTTP":
        data = fields.rest()
        return {"form": "HTTP", **(http.response(data) or {}), "text": quoted(data)}
    word, behind = chosen(REPLIES, fields.number(), "reply code")
    return {"form": "plain", "reply": word, **behind(fields, device)}


# ---- records


def packet_record(fields: Fields, view: View) -> Values:
    number, inputs, data = fields.number(), view.device.inputs, fields.left
    values: Values = {"input": name(inputs, number)}
    try:
        values.update(packet(fields, inputs[number] if number < len(inputs) else None))
    except Fault as fault:  # No fault of the capture, which holds whatever came in.
        fields.rest()
        values.update({"no_packet": fault.args[1], "bytes": data.hex()})
    return values


def stream_record(fields: Fields, view: View) -> Values:
    client, data = fields.number(), fields.rest()
    found = http.requests(data)
    whole = {} if found is None else {"requests": found}
    return {"client": client, **whole, "text": quoted(data)}


def request_record(fields: Fields, view: View) -> Values:
    return {"client": fields.number(), **request(fields, view.device)}


def grain_record(fields: Fields, view: View) -> Values:
    return {"grain": chosen(GRAINS, fields.number(), "grain")}


def work_record(fields: Fields, view: View) -> Values:
    return {"claims": fields.number(4)}


def claim_record(fields: Fields, view: View) -> Values:
    device, one, claim = view.device, None, fields.number(8)
    values: Values = {"claim": claim}
    # A flag is 0 or 1 and a packet begins with 80: this tells the flags where no device does.
    inputs = len(fields.left) - len(fields.left.lstrip(b"\0\1"))
    if device.is_known:
        one, inputs = device.outputs[claim % len(device.outputs)], len(device.inputs)
        tick = device.base + claim // len(device.outputs)
        values.update({"output": one.name, "tick": tick})
    flags = [chosen({0: False, 1: True}, flag, "flag") for flag in fields.take(inputs)]
    values["found"] = [name(device.inputs, number) for number, flag in enumerate(flags) if flag]
    if one:
        whole = RTP_HEAD_LENGTH + device.frames * one.channels * one.bits // 8
        if len(fields.left) != whole:
            raise Fault("wrong length", f"packet of {whole} bytes, {len(fields.left)} there")
    return {**values, **packet(fields, one)}


def call_record(fields: Fields, view: View) -> Values:
    values = {"claims": fields.number(8), "client": fields.number()}
    values.update({"id": fields.number(8), **fields.moment()})
    return {**values, **request(fields, view.device)}


def reply_record(fields: Fields, view: View) -> Values:
    values = {"client": fields.number(), "calls": fields.number(8), "claims": fields.number(8)}
    return {**values, **reply(fields, view.device)}


def end_record(fields: Fields, view: View) -> Values:
    return {}


Reader = Callable[[Fields, View], Values]
RECORDS: dict[str, dict[int, tuple[str, Reader]]] = {
    "capture": {
        ord("D"): ("device", device_record),
        ord("J"): ("device", json_device),
        GRAIN_TAG: ("grain", grain_record),
        ord("P"): ("packet", packet_record),
        ord("Q"): ("stream", stream_record),
        ord("A"): ("request", request_record),
        ord("T"): ("work", work_record),
        END_TAG: ("end", end_record),
    },
    "result": {
        ord("C"): ("claim", claim_record),
        ord("H"): ("call", call_record),
        ord("R"): ("reply", reply_record),
        END_TAG: ("end", end_record),
    },
}
KINDS = [*RECORDS, *dict.fromkeys(k for r in RECORDS.values() for k, _ in r.values())]


def read_record(text_kind: str, tag: int, body: bytes, at: int, view: View) -> Record:
    fields = Fields(body, at + RECORD_HEAD_LENGTH, view.format)
    if tag not in RECORDS[text_kind] or (tag == GRAIN_TAG and view.format == 1):
        return view.fault(at, "unknown", f"{text_kind} record with tag {tag:02x}")
    kind, reader = RECORDS[text_kind][tag]
    try:
        values = reader(fields, view)
        if fields.left:
            raise Fault("wrong length", f"{counted(len(fields.left), 'byte')} too many")
    except Fault as fault:
        return view.fault(at, fault.args[0], f"{fault.args[1]} (record {tag:02x})")
    return Record(at, kind, values)


def read_records(data: bytes, at: int, text_kind: str, view: View) -> Generator[Record, None, int]:
    """The records up to the end record; answers the place after it."""
    tag = 0
    while tag != END_TAG:
        head = data[at : at + RECORD_HEAD_LENGTH]
        if len(head) < RECORD_HEAD_LENGTH:
            yield view.fault(at, "cut", f"head of {RECORD_HEAD_LENGTH} bytes, {len(head)} there")
            return len(data)
        tag, length, start = head[0], int.from_bytes(head[1:], "big"), at + RECORD_HEAD_LENGTH
        body = data[start : start + length]
        if len(body) < length:
            yield view.fault(at, "cut", f"record of {length} bytes, {len(body)} there")
            return len(data)
        yield read_record(text_kind, tag, body, at, view)
        at = start + length
    return at


def read(data: bytes, view: View) -> Iterator[Record]:
    """The records of all texts that follow one another."""
    at = 0
    while at == 0 or at < len(data):
        magic = data[at : at + MAGIC_LENGTH]
        if magic not in MAGICS:
            kind, found = "unknown", "no capture or result begins here"
            if any(known.startswith(magic) for known in MAGICS):
                kind, found = "cut", f"magic of {MAGIC_LENGTH} bytes, {len(magic)} there"
            yield view.fault(at, kind, found)
            return
        text_kind, view.format = MAGICS[magic]
        if text_kind == "capture":
            view.device = Device()  # A capture tells its own device.
        yield Record(at, text_kind, {"format": view.format})
        at = yield from read_records(data, at + MAGIC_LENGTH, text_kind, view)


def samples(values: Values) -> Optional[list[list[int]]]:
    """A packet's samples, frame by frame, as signed numbers; None where no port tells the width."""
    size, channels = values.get("sample_bytes"), values.get("channels")
    if not size or not channels:
        return None
    data = bytes.fromhex(values["payload"])
    flat = [
        int.from_bytes(data[at : at + size], "big", signed=True)
        for at in range(0, len(data) - size + 1, size)
    ]
    return [flat[at : at + channels] for at in range(0, len(flat), channels)]
