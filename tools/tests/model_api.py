"""The device as JSON and the answers of the control API: a part of model.py.

It is written from docs/FORMATS-JSON.md and docs/FORMATS-HTTP.md alone.
"""

from __future__ import annotations

import json
import math
import re
from collections.abc import Callable
from typing import Any, Optional, Union

from model_book import BILLION, SECONDS, WIDTHS, Book, Call, Cell, Changes, Device, Misread
from model_book import Port, Request, Row, Texts, cell_bytes, check_device, require
from model_http import INPUT_PARTS, NAMES, OUTPUT_PARTS, PREFLIGHT, HttpRequest, Resource, Said
from model_http import compact, cut, error, names, resource, response

DEEPEST = 127
HYPHENATED = r"[0-9a-f]{8}(?:-[0-9a-f]{4}){3}-[0-9a-f]{12}"
UUID = re.compile(rf"[0-9a-f]{{32}}|(?:urn:uuid:)?{HYPHENATED}|\{{{HYPHENATED}\}}", re.I | re.A)
UUID_PARTS = ((0, 8), (8, 12), (12, 16), (16, 20), (20, 32))
CHECKS = (
    "unknown input",
    "input channel out of range",
    "input not routable",
    "block not whole",
    "block reordered",
)
MODES = ("activate_immediate", "activate_scheduled_absolute", "activate_scheduled_relative")


class NotJson(Exception):
    """The bytes are no JSON value."""


# ---- JSON values


def whole_number(digits: str) -> Union[int, float]:
    """A number without point and exponent; -0, and one past 64 bits, is no whole number."""
    number = int(digits) if len(digits) < 400 else math.inf
    is_whole = -(1 << 63) <= number < 1 << 64 and digits != "-0"
    return number if is_whole else fraction(digits)


def fraction(digits: str) -> float:
    number = float(digits)
    if math.isinf(number):
        raise NotJson
    return number


def no_constant(word: str) -> None:
    raise NotJson


READINGS = {"parse_int": whole_number, "parse_float": fraction, "parse_constant": no_constant}


def depth(value: Any) -> int:
    inner = value.values() if isinstance(value, dict) else value
    is_nested = isinstance(value, (dict, list))
    return 1 + max(map(depth, inner), default=0) if is_nested else 0


def document(data: bytes) -> Any:
    """The value of a text (RFC 8259): UTF-8, nested at most 127 deep, without lone surrogates."""
    try:
        value = json.loads(data.decode("utf-8"), **READINGS)
        json.dumps(value, ensure_ascii=False).encode("utf-8")
        is_deep = depth(value) > DEEPEST
    except (UnicodeError, ValueError, RecursionError):
        raise NotJson from None
    if is_deep:
        raise NotJson
    return value


def whole(value: Any, most: int) -> int:
    require(type(value) is int and 0 <= value <= most)
    return value


def text(value: Any) -> str:
    require(isinstance(value, str))
    return value


def listed(value: Any) -> list[Any]:
    require(isinstance(value, list))
    return value


def member(value: Any, key: str) -> Any:
    require(isinstance(value, dict) and key in value)
    return value[key]


def uuid_text(value: Any) -> str:
    require(UUID.fullmatch(text(value)) is not None)
    digits = re.sub(r"^urn:uuid:|[{}-]", "", value.lower())
    return "-".join(digits[start:end] for start, end in UUID_PARTS)


# ---- the device


def parent(value: Any) -> Optional[tuple[str, str]]:
    if value is None:
        return None
    kind, uuid = text(member(value, "type")), uuid_text(member(value, "id"))
    require(kind in ("source", "receiver"))
    return kind, uuid


def json_port(value: Any) -> Port:
    """What inputs and outputs have alike."""
    name = text(member(value, "id"))
    labels = [text(member(one, "label")) for one in listed(member(value, "channels"))]
    bits = whole(member(value, "width"), 255)
    payload_type = whole(member(value, "payload_type"), 255)
    require(bits in WIDTHS)
    told = Texts(text(value.get("name", name)), labels, text(value.get("description", "")))
    return Port(name.encode("utf-8"), len(labels), WIDTHS[bits], payload_type, told=told)


def json_input(value: Any) -> Port:
    port = json_port(value)
    port.block = whole(value.get("block_size", 1), 255)
    port.reorders = value.get("reordering", True)
    require(isinstance(port.reorders, bool))
    port.told.parent = parent(value.get("parent"))
    return port


def json_output(value: Any, inputs: list[Port]) -> Port:
    places: dict[str, int] = {}
    for place, port in enumerate(inputs):
        places.setdefault(port.name.decode("utf-8"), place)

    def place_of(value: Any) -> int:
        require(text(value) in places)
        return places[value]

    def cell(value: Any) -> Cell:
        if value is None:
            return None
        return place_of(member(value, "input")), whole(member(value, "channel_index"), 255)

    port = json_port(value)
    port.ssrc = whole(member(value, "ssrc"), (1 << 32) - 1)
    source, choices = value.get("source_id"), value.get("routable_inputs")
    port.told.source = None if source is None else uuid_text(source)
    if choices is not None:
        port.routable = [None if one is None else place_of(one) for one in listed(choices)]
    port.row = [cell(one) for one in listed(value.get("map", [None] * port.channels))]
    return port


def json_device(data: bytes) -> Device:
    try:
        value = document(data)
    except NotJson:
        raise Misread from None
    hz = whole(member(value, "rate"), (1 << 32) - 1)
    frames = whole(member(value, "frames"), (1 << 16) - 1)
    base, hold = whole(value.get("base", 0), (1 << 64) - 1), whole(value.get("hold", 0), 255)
    inputs = [json_input(one) for one in listed(member(value, "inputs"))]
    outputs = [json_output(one, inputs) for one in listed(member(value, "outputs"))]
    device = Device(hz, frames, base, hold, inputs, outputs)
    check_device(device)
    return device


# ---- the body of a POST


class Fault(Exception):
    """What is wrong with a body, in the words of the response."""


def fault(word: str) -> Fault:
    return Fault(f"body shape: {word}")


def time_of(value: Any) -> Optional[tuple[int, int]]:
    """The time of a text `seconds:nanoseconds`, where it is one."""
    parts = value.split(":") if isinstance(value, str) and value.isascii() else []
    if len(parts) != 2 or not all(part.isdigit() for part in parts):
        return None
    seconds, nanos = (part.lstrip("0") or "0" for part in parts)
    if len(seconds) > 13 or int(seconds) >= SECONDS or len(nanos) > 9:
        return None
    return int(seconds), int(nanos)


def action_bytes(changes: Changes) -> bytes:
    data = bytes([len(changes)])
    for output, cells in changes.items():
        data += bytes([output, len(cells)])
        data += b"".join(bytes([channel]) + cell_bytes(cell) for channel, cell in cells.items())
    return data


def number_below(most: int, key: str) -> Optional[int]:
    """The number whose decimal text this is, without leading zeros, up to the greatest."""
    if not key.isascii() or not key.isdigit() or len(key) > len(str(most)) or int(key) > most:
        return None
    return int(key) if str(int(key)) == key else None


def place(ports: list[Port], name: str) -> Optional[int]:
    return next((number for number, port in enumerate(ports) if port.id == name), None)


def posted_cell(device: Device, key: str, value: Any) -> tuple[int, Cell]:
    channel = number_below(255, key)
    if channel is None or not isinstance(value, dict):
        raise fault("cell")
    name, index = value.get("input"), value.get("channel_index")
    if name is None and index is None:
        return channel, None
    if not isinstance(name, str) or type(index) is not int or not 0 <= index <= 255:
        raise fault("cell")
    source = place(device.inputs, name)
    if source is None:
        raise Fault("unknown input")
    return channel, (source, index)


def posted_changes(device: Device, action: dict[str, Any]) -> Changes:
    """Outputs in the device's order, channels by number; faults in the order of the keys' bytes."""
    changes: Changes = {}
    for name in sorted(action):
        output = place(device.outputs, name)
        if output is None:
            raise Fault("unknown output")
        if not isinstance(action[name], dict):
            raise fault("output")
        cells = [posted_cell(device, key, action[name][key]) for key in sorted(action[name])]
        changes[output] = dict(sorted(cells, key=lambda cell: cell[0]))
    return dict(sorted(changes.items()))


def posted(device: Device, body: bytes) -> Request:
    """The request of a body; `Fault` for the first thing that is wrong with it."""
    try:
        value = document(body)
    except NotJson:
        raise Fault("body is not JSON") from None
    if not isinstance(value, dict):
        raise fault("top")
    activation = value.get("activation")
    if not isinstance(activation, dict):
        raise fault("activation")
    mode = activation.get("mode")
    if not isinstance(mode, str) or mode not in MODES:
        raise fault("mode")
    op = MODES.index(mode)
    time = time_of(activation.get("requested_time")) if op > 0 else (0, 0)
    if time is None:
        raise fault("time")
    if not isinstance(value.get("action"), dict):
        raise fault("action")
    changes = posted_changes(device, value["action"])
    when = time[0].to_bytes(8, "big") + time[1].to_bytes(4, "big") if op > 0 else b""
    return Request(bytes([op]) + when + action_bytes(changes), op, time, changes)


# ---- bodies


def time_text(nanos: int) -> str:
    return f"{nanos // BILLION}:{nanos % BILLION}"


def cell_json(device: Device, cell: Cell) -> dict[str, Any]:
    source = None if cell is None else device.inputs[cell[0]].id
    return {"channel_index": None if cell is None else cell[1], "input": source}


def activation_json(device: Device, call: Optional[Call]) -> dict[str, Any]:
    if call is None:
        return {"activation_time": None, "mode": None, "requested_time": None}
    requested = time_text(call.request.nanos) if call.request.op > 0 else None
    start = time_text(device.start(call.position))
    return {"activation_time": start, "mode": MODES[call.request.op], "requested_time": requested}


def item_json(device: Device, call: Call) -> dict[str, Any]:
    action = {}
    for output, cells in call.request.changes.items():
        row = {str(channel): cell_json(device, cell) for channel, cell in cells.items()}
        action[device.outputs[output].id] = row
    return {"action": action, "activation": activation_json(device, call)}


def map_json(device: Device, rows: dict[int, Row]) -> dict[str, Any]:
    def row_json(row: Row) -> dict[str, Any]:
        return {str(channel): cell_json(device, cell) for channel, cell in enumerate(row)}

    return {device.outputs[output].id: row_json(row) for output, row in rows.items()}


def part_json(device: Device, kind: str, port: Port, part: str) -> Any:
    """A part of an input or output."""
    texts = port.texts
    if part == "properties":
        return {"description": texts.description, "name": texts.name}
    if part == "channels":
        return [{"label": label} for label in texts.labels]
    if part == "parent":
        return {"id": texts.parent and texts.parent[1], "type": texts.parent and texts.parent[0]}
    if part == "sourceid":
        return texts.source
    if kind == "input":
        return {"block_size": port.block, "reordering": port.reorders}
    choices = port.routable
    if choices is not None:
        choices = [None if one is None else device.inputs[one].id for one in choices]
    return {"routable_inputs": choices}


def io_json(device: Device) -> dict[str, Any]:
    def all_parts(kind: str, port: Port, parts: tuple[str, ...]) -> dict[str, Any]:
        key = {"sourceid": "source_id"}
        return {key.get(part, part): part_json(device, kind, port, part) for part in parts}

    return {
        "inputs": {one.id: all_parts("input", one, INPUT_PARTS) for one in device.inputs},
        "outputs": {one.id: all_parts("output", one, OUTPUT_PARTS) for one in device.outputs},
    }


# ---- answers

Ask = Callable[[Request], bytes]  # asks the book, and gives its plain reply


def said_refusal(reply: bytes) -> Said:
    """What is said of a refusal of the book, by its plain reply."""
    if reply[0] == 0x14:
        return error(400, CHECKS[reply[2] - 1])
    status, words = {
        0x10: (400, "no output in action"),
        0x11: (400, "unknown output"),
        0x12: (400, "output channel out of range"),
        0x13: (423, "output locked"),
        0x15: (400, "time out of range"),
        0x16: (404, "no such activation"),
    }[reply[0]]
    return error(status, words)


class Api:
    """Answers the requests of streams by a book that is asked at most once for each."""

    def __init__(self, device: Device, book: Book) -> None:
        self.device = device
        self.book = book

    def answer(self, http: HttpRequest, first: int, ask: Ask) -> bytes:
        return response(self.said(http, first, ask), http.closes)

    def said(self, http: HttpRequest, first: int, ask: Ask) -> Said:
        method = http.method.decode("ascii")
        if method == "OPTIONS":
            return Said(200, extra=PREFLIGHT)
        found = resource(cut(http.path))
        if found is None:
            return error(404, "unknown resource")
        if method not in found.methods:
            return error(405, "method not allowed", found.allow)
        if found.kind in ("activations", "activation", "active", "row"):
            return self.of_map(found, method, http.body, first, ask)
        value = self.fixed(found)
        return error(404, "unknown resource") if value is None else Said(200, value)

    def fixed(self, found: Resource) -> Optional[bytes]:
        """What a resource says that no activation changes; None where its port is not there."""
        device = self.device
        if found.kind == "names":
            return names(NAMES[found.name])
        if found.kind == "io":
            return compact(io_json(device))
        if found.kind in ("inputs", "outputs"):
            ports = device.inputs if found.kind == "inputs" else device.outputs
            return names([port.id for port in ports])
        is_input = found.kind == "input"
        ports = device.inputs if is_input else device.outputs
        number = place(ports, found.name)
        if number is None:
            return None
        if not found.part:
            return names(list(INPUT_PARTS if is_input else OUTPUT_PARTS))
        return compact(part_json(device, found.kind, ports[number], found.part))

    def of_map(self, found: Resource, method: str, body: bytes, first: int, ask: Ask) -> Said:
        if found.kind in ("active", "row"):
            return self.active(found, first, ask)
        if method == "POST":
            return self.post(body, ask)
        number = number_below((1 << 64) - 1, found.name) if found.kind == "activation" else None
        if found.kind == "activation" and not number:
            return error(404, "unknown resource")
        if method == "DELETE":
            reply = ask(Request(b"\3" + number.to_bytes(8, "big"), 3, id=number))
            return Said(204) if reply[0] == 2 else said_refusal(reply)
        ask(Request(b"\5", 5))
        items = {str(call.id): item_json(self.device, call) for call in self.book.pending(first)}
        if number is None:
            return Said(200, compact(items))
        item = items.get(str(number))
        return error(404, "no such activation") if item is None else Said(200, compact(item))

    def active(self, found: Resource, first: int, ask: Ask) -> Said:
        outputs = list(range(len(self.device.outputs)))
        if found.kind == "row":
            output = place(self.device.outputs, found.name)
            if output is None:
                return error(404, "unknown resource")
            outputs = [output]
        ask(Request(b"\4", 4))
        rows = {output: self.book.row(output, first) for output in outputs}
        last = activation_json(self.device, self.book.last(first))
        return Said(200, compact({"activation": last, "map": map_json(self.device, rows)}))

    def post(self, body: bytes, ask: Ask) -> Said:
        try:
            request = posted(self.device, body)
        except Fault as wrong:
            return error(400, wrong.args[0])
        reply = ask(request)
        if reply[0] > 1:
            return said_refusal(reply)
        call = self.book.accepted[-1]
        body = compact({str(call.id): item_json(self.device, call)})
        return Said(200 if reply[0] == 0 else 202, body)
