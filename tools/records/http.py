"""What stands in captures of HTTP clients: devices as JSON, requests, responses.

docs/FORMATS-JSON.md and docs/FORMATS-HTTP.md tell the bytes. What has no reading here is shown as
it stands: nothing of it is judged.
"""

from __future__ import annotations

import json
import re
from collections.abc import Callable
from typing import Any, Optional

REQUEST_LINE = re.compile(rb"([A-Z]+) (\S+) HTTP/1\.[01]\r?\n")
STATUS_LINE = re.compile(rb"HTTP/1\.1 (\d{3}) ([^\r\n]*)\r\n")
HEAD_END = re.compile(rb"\r?\n\r?\n")
LENGTH = re.compile(rb"^content-length:[ \t]*(\d{1,6})[ \t]*\r?$", re.I | re.M)

Values = dict[str, Any]


def text(data: bytes) -> Optional[str]:
    try:
        return data.decode("utf-8")
    except UnicodeDecodeError:
        return None


# ---- streams


def requests(data: bytes) -> Optional[list[Values]]:
    """The whole requests of which a piece consists; None where it is no such row of requests."""
    found: list[Values] = []
    while data:
        line, end = REQUEST_LINE.match(data), HEAD_END.search(data)
        if not line or not end:
            return None
        lengths = LENGTH.findall(data[: end.start()] + b"\n")
        length = int(lengths[0]) if lengths else 0
        body = text(data[end.end() : end.end() + length])
        target = text(line.group(2))
        if len(lengths) > 1 or len(data) < end.end() + length or body is None or target is None:
            return None
        found.append({"method": line.group(1).decode("ascii"), "target": target, "body": body})
        data = data[end.end() + length :]
    return found or None


def response(data: bytes) -> Optional[Values]:
    """The status, what is allowed, whether the connection ends, and the body of a response."""
    line, head, body = STATUS_LINE.match(data), data.partition(b"\r\n\r\n")[0], text(data)
    if not line or body is None or b"\r\n\r\n" not in data:
        return None
    fields = dict(one.partition(b": ")[::2] for one in head.split(b"\r\n")[1:])
    return {
        "status": int(line.group(1)),
        "reason": line.group(2).decode("utf-8"),
        "allow": text(fields.get(b"Allow", b"")) or None,
        "closes": fields.get(b"Connection") == b"close",
        "body": body.partition("\r\n\r\n")[2],
    }


# ---- a device as JSON


class Unread(Exception):
    """The text is no device that can be shown line by line."""


def member(value: Any, key: str, kind: type) -> Any:
    if not isinstance(value, dict) or type(value.get(key)) is not kind:
        raise Unread
    return value[key]


def port(value: Any) -> Values:
    channels = len(member(value, "channels", list))
    return {
        "id": member(value, "id", str),
        "channels": channels,
        "bits": member(value, "width", int),
        "type": member(value, "payload_type", int),
    }


def input_port(value: Any) -> Values:
    block, order = value.get("block_size", 1), value.get("reordering", True)
    if type(block) is not int or type(order) is not bool:
        raise Unread
    return {**port(value), "block_size": block, "reordering": order}


def cell(value: Any) -> Optional[Values]:
    if value is None:
        return None
    return {"input": member(value, "input", str), "channel": member(value, "channel_index", int)}


def output_port(value: Any) -> Values:
    values = {**port(value), "ssrc": member(value, "ssrc", int)}
    choices = value.get("routable_inputs")
    if choices is not None and not all(one is None or type(one) is str for one in choices):
        raise Unread
    row = value.get("map", [None] * values["channels"])
    if type(row) is not list or len(row) != values["channels"]:
        raise Unread
    return {**values, "routable": choices, "row": [cell(one) for one in row]}


def each(value: Any, key: str, reading: Callable[[Any], Values]) -> list[Values]:
    return [reading(one) for one in member(value, key, list)]


def device(data: bytes) -> Optional[Values]:
    """What a text says of a device, by the names that a plain device's values have."""
    try:
        value = json.loads(data.decode("utf-8"))
        return {
            "rate": member(value, "rate", int),
            "frames": member(value, "frames", int),
            "base": member({"base": 0, **value}, "base", int),
            "hold": member({"hold": 0, **value}, "hold", int),
            "inputs": each(value, "inputs", input_port),
            "outputs": each(value, "outputs", output_port),
        }
    except (Unread, ValueError, TypeError, AttributeError, RecursionError):
        return None
