"""HTTP/1.1 and the control API as `chanmap serial` answers them: a part of model.py.

It is written from docs/FORMATS-HTTP.md alone. Where the page leaves open when a head is refused, it
says so (`Doubtful`).
"""

from __future__ import annotations

import json
from dataclasses import dataclass
from typing import Optional, Union

MOST_HEAD = 8192
MOST_FIELDS = 64
MOST_BODY = 262144
TOKEN = frozenset(b"!#$%&'*+-.^_`|~0123456789ABCDEFGHIJKLMNOPQRSTUVWXYZabcdefghijklmnopqrstuvwxyz")
TARGET = frozenset(range(0x21, 0x100)) - {0x7F}
VALUE = TARGET | {0x20, 0x09}
REASONS = {
    200: "OK",
    202: "Accepted",
    204: "No Content",
    400: "Bad Request",
    404: "Not Found",
    405: "Method Not Allowed",
    411: "Length Required",
    413: "Content Too Large",
    423: "Locked",
    431: "Request Header Fields Too Large",
    503: "Service Unavailable",
}
BAD = {400: "bad request", 411: "length required", 413: "body too large", 431: "head too large"}
PREFLIGHT = (
    "Access-Control-Allow-Methods: GET, POST, DELETE, OPTIONS\r\n"
    "Access-Control-Allow-Headers: Content-Type, Accept\r\n"
    "Access-Control-Max-Age: 3600\r\n"
)


class Doubtful(Exception):
    """The page leaves open whether these bytes are refused now or later."""


class Short(Exception):
    """The bytes end within a head."""


class Wrong(Exception):
    """No head begins with the bytes."""


@dataclass
class HttpRequest:
    method: bytes
    path: bytes
    body: bytes
    closes: bool


class Head:
    """The head of a request, read byte by byte (RFC 9112; a line may end in LF alone)."""

    def __init__(self, data: bytes) -> None:
        self.data = data
        self.at = 0
        self.fields: list[tuple[bytes, bytes]] = []
        while self.peek() in b"\r\n":
            self.line_end()
        self.method = self.run(TOKEN)
        self.expect(b" ")
        self.target = self.run_of_target()
        self.expect(b" HTTP/1.")
        if self.peek() not in b"01":
            raise Wrong
        self.minor = self.peek() - ord("0")
        self.at += 1
        self.line_end()
        while self.peek() not in b"\r\n":
            self.field()
        self.line_end()
        if len(self.fields) > MOST_FIELDS:
            raise Wrong

    def peek(self) -> int:
        if self.at == len(self.data):
            raise Short
        return self.data[self.at]

    def expect(self, text: bytes) -> None:
        for byte in text:
            if self.peek() != byte:
                raise Wrong
            self.at += 1

    def run(self, allowed: frozenset, least: int = 1) -> bytes:
        start = self.at
        while self.peek() in allowed:
            self.at += 1
        if self.at - start < least:
            raise Wrong
        return self.data[start : self.at]

    def run_of_target(self) -> bytes:
        """The target, which is UTF-8; of another the page does not say when it is refused."""
        start = self.at
        try:
            target = self.run(TARGET)
        except Short:
            if not self.data[start:].isascii():
                raise Doubtful from None
            raise
        try:
            target.decode("utf-8")
        except UnicodeDecodeError:
            raise Wrong from None
        return target

    def line_end(self) -> None:
        if self.peek() == ord("\r"):
            self.at += 1
        self.expect(b"\n")

    def field(self) -> None:
        name = self.run(TOKEN)
        self.expect(b":")
        value = self.run(VALUE, least=0)
        self.line_end()
        self.fields.append((name.lower(), value.strip(b" \t")))

    def values(self, name: bytes) -> list[bytes]:
        return [value for one, value in self.fields if one == name]

    def framing(self) -> Union[int, tuple[int]]:
        """The body's length, or the status with which the head is refused."""
        lengths = self.values(b"content-length")
        if self.values(b"transfer-encoding"):
            return (411,)
        if len(lengths) > 1 or any(not value.isdigit() for value in lengths):
            return (400,)
        if not lengths:
            return (411,) if self.method == b"POST" else 0
        digits = lengths[0].lstrip(b"0") or b"0"
        if len(digits) > len(str(MOST_BODY)) or int(digits) > MOST_BODY:
            return (413,)
        return int(digits)

    def closes(self) -> bool:
        asked = [value.lower() for value in self.values(b"connection")]
        return self.minor == 0 or b"close" in asked


class HttpStream:
    """A client's stream: the bytes that no request has taken yet."""

    def __init__(self) -> None:
        self.held = b""
        self.ended = False

    def feed(self, piece: bytes) -> list[Union[HttpRequest, int]]:
        """The requests that the piece makes whole, and the status where the stream is refused."""
        answers = []
        self.held += piece
        while not self.ended and (answer := self.next()) is not None:
            answers.append(answer)
        return answers

    def next(self) -> Union[HttpRequest, int, None]:
        window = self.held[:MOST_HEAD]
        try:
            head = Head(window)
        except Short:
            if window.count(b"\n") > MOST_FIELDS:
                raise Doubtful from None
            return self.refuse(431) if len(window) == MOST_HEAD else None
        except Wrong:
            if b"\n" not in window.lstrip(b"\r\n"):
                raise Doubtful from None
            return self.refuse(400)
        length = head.framing()
        if isinstance(length, tuple):
            return self.refuse(*length)
        if len(self.held) < head.at + length:
            return None
        body = self.held[head.at : head.at + length]
        self.held = self.held[head.at + length :]
        self.ended = head.closes()
        return HttpRequest(head.method, head.target.split(b"?")[0], body, head.closes())

    def refuse(self, status: int) -> int:
        self.ended = True
        return status


# ---- responses


@dataclass
class Said:
    """What a response says: a status, a body, and lines of its own."""

    status: int
    body: Optional[bytes] = None
    extra: str = ""


def compact(value: object) -> bytes:
    text = json.dumps(value, ensure_ascii=False, separators=(",", ":"), sort_keys=True)
    return text.encode("utf-8")


def error(status: int, text: str, extra: str = "") -> Said:
    return Said(status, compact({"code": status, "debug": None, "error": text}), extra)


def response(said: Said, closes: bool) -> bytes:
    lines = f"HTTP/1.1 {said.status} {REASONS[said.status]}\r\n"
    if said.body is not None:
        lines += f"Content-Type: application/json\r\nContent-Length: {len(said.body)}\r\n"
    elif said.status != 204:
        lines += "Content-Length: 0\r\n"
    lines += f"Access-Control-Allow-Origin: *\r\n{said.extra}"
    lines += f"Connection: {'close' if closes or said.status == 503 else 'keep-alive'}\r\n\r\n"
    return lines.encode("ascii") + (said.body or b"")


def refused(status: int) -> bytes:
    """The response to a stream that is refused."""
    return response(error(status, BAD[status]), True)


# ---- resources

VERSION = "/x-nmos/channelmapping/v1.0"
INPUT_PARTS = ("properties", "parent", "channels", "caps")
OUTPUT_PARTS = ("properties", "sourceid", "channels", "caps")
FIXED = ("inputs", "outputs", "io", "map/activations", "map/active")
BELOW = {"map/activations": "activation", "map/active": "row"}
METHODS = {"activations": ("GET", "POST"), "activation": ("GET", "DELETE")}
NAMES: dict[str, list[str]] = {
    "/": ["x-nmos"],
    "/x-nmos": ["channelmapping"],
    "/x-nmos/channelmapping": ["v1.0"],
    VERSION: ["inputs", "outputs", "map", "io"],
    f"{VERSION}/map": ["activations", "active"],
}


def names(of: list[str]) -> bytes:
    return compact([f"{name}/" for name in of])


def cut(path: bytes) -> str:
    """The path without one trailing slash; of one that is not UTF-8, a text that is no resource."""
    if len(path) > 1 and path.endswith(b"/"):
        path = path[:-1]
    return path.decode("utf-8", "replace")


@dataclass
class Resource:
    """What a path leads to: a kind, the id that it names, and a part of an input or output."""

    kind: str
    name: str = ""
    part: str = ""

    @property
    def methods(self) -> tuple[str, ...]:
        return METHODS.get(self.kind, ("GET",))

    @property
    def allow(self) -> str:
        return f"Allow: {', '.join((*self.methods, 'OPTIONS'))}\r\n"


def resource(path: str) -> Optional[Resource]:
    """The resource of a path that was cut."""
    if path in NAMES:
        return Resource("names", path)
    if not path.startswith(f"{VERSION}/"):
        return None
    words = path[len(VERSION) + 1 :].split("/")
    if "/".join(words) in FIXED:
        return Resource(words[-1])
    if len(words) == 3 and "/".join(words[:2]) in BELOW and words[2]:
        return Resource(BELOW["/".join(words[:2])], words[2])
    parts = {"inputs": INPUT_PARTS, "outputs": OUTPUT_PARTS}.get(words[0], ())
    if parts and len(words) in (2, 3) and words[1] and (len(words) == 2 or words[2] in parts):
        return Resource(words[0][:-1], words[1], words[2] if len(words) == 3 else "")
    return None
