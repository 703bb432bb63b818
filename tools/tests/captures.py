"""Captures, made at random: of plain records alone, and with clients of the control API."""

from __future__ import annotations

import json
import random

import model

API = "/x-nmos/channelmapping/v1.0"
MODES = ["activate_immediate", "activate_scheduled_absolute", "activate_scheduled_relative"]
LABELS = ["", "left", "\u00e9\n\"\\", "\u0001"]
NO_FIELDS = [None, -1, 1.0, "a", [], {}, 1 << 70, True]
NO_CELLS = [None, [], {"input": "a"}, {"channel_index": 0}, {"input": 1, "channel_index": 0}]
NO_CHANNELS = ["00", "256", "-1", "", "1 "]
NO_TIMES = [None, "", "1:", "1:1000000000", "01:01"]
NO_LENGTHS = ["0", "1", "262145", "-1", "+1", "", "1 1"]
NO_HEADS = [b"\r\nno request\r\n", b"GET /\r\n\r\n", b"GET / HTTP/1.1\r\na b: c\r\n\r\n", b"GET "]
CONNECTIONS = ["Connection: close", "connection:  CLOSE\t", "Connection: keep-alive"]
TARGETS = ["/", "//", "/x-nmos", "/x-nmos/", "/x-nmos/channelmapping", "/zz", "*", "?a", "/\u00e9"]
METHODS = ["GET", "GET", "POST", "POST", "POST", "DELETE", "OPTIONS", "PUT"]
PARTS = ["", "/", "/properties", "/parent", "/channels", "/caps", "/sourceid", "/zz"]
PATHS = [
    *["", "//", "/inputs", "/outputs/", "/io", "/map", "/map/active", "/map/active/x"],
    *["/map/active/zz", "/map/activations", "/map/activations/1", "/map/activations/01"],
    *["/map/activations/18446744073709551616", "/inputs/a", "/outputs/x", "/inputs/zz"],
]


class Captures:
    """Captures, made at random, of these formats."""

    def __init__(self, seed: int, formats: tuple[int, ...] = (1, 2, 2)) -> None:
        self.random = random.Random(seed)
        self.frames = self.random.choice([1, 2, 3, 48])
        wrap = (1 << 32) // self.frames
        self.base = self.random.choice([0, 0, 1, wrap - 2, wrap // 2, 3 * wrap - 1, 1 << 40])
        self.hold = self.random.choice([0, 0, 1, 2, 64])
        self.inputs = [self.random.randint(1, 4) for _ in range(self.random.randint(0, 3))]
        self.blocks = [
            self.random.choice([1, channels, 2 - channels % 2]) for channels in self.inputs
        ]
        self.bits = [self.random.choice([16, 24]) for _ in self.inputs]
        self.outputs = [self.random.randint(1, 4) for _ in range(self.random.randint(1, 3))]
        # format 1 has no grain, and in format 2 it is that of ticks where nothing tells it
        self.format = self.random.choice(formats)
        self.grain = self.random.choice([None, 0, 1, 1]) if self.format == 2 else None

    def cell(self) -> bytes:
        """A cell, of which few name what is not there."""
        if not self.inputs or self.random.random() < 0.3:
            return b"\xff\0"
        source = self.random.randrange(len(self.inputs) + (self.random.random() < 0.05))
        channels = self.inputs[source] if source < len(self.inputs) else 1
        return bytes([source, self.random.randrange(channels + (self.random.random() < 0.05))])

    def row(self, channels: int) -> list[bytes]:
        """A row in which inputs stand in whole pieces, each in ascending order."""
        row = [b"\xff\0"] * channels
        at = 0
        while self.inputs and at < channels:
            source = self.random.randrange(len(self.inputs))
            block = self.blocks[source]
            if self.random.random() < 0.6 and at + block <= channels:
                first = block * self.random.randrange(self.inputs[source] // block)
                row[at : at + block] = [bytes([source, first + place]) for place in range(block)]
            at += block
        return row

    def routable(self, row: list[bytes]) -> bytes:
        """Any input; or a list, which has what the row names."""
        if self.random.random() < 0.6:
            return b"\xff"
        members = {254 if cell[0] == 255 else cell[0] for cell in row}
        members |= {
            number for number in [254, *range(len(self.inputs))] if self.random.random() < 0.6
        }
        return bytes([len(members), *sorted(members)])

    def device(self) -> bytes:
        body = (
            (48000).to_bytes(4, "big")
            + self.frames.to_bytes(2, "big")
            + self.base.to_bytes(8, "big")
        )
        body += bytes([self.hold, len(self.inputs), len(self.outputs)])
        for number, channels in enumerate(self.inputs):
            body += bytes([1, ord("a") + number, channels, self.bits[number], 96])
            body += bytes([self.blocks[number], self.random.randrange(2)])
        for number, channels in enumerate(self.outputs):
            row = self.row(channels)
            body += bytes([1, ord("x") + number, channels, self.random.choice([16, 24]), 97])
            body += self.random.randbytes(4) + self.routable(row) + b"".join(row)
        return model.record(b"D", body)

    def frame(self, ticks: int) -> int:
        """The first frame of a packet, from the session's first: near the session, or anywhere."""
        if self.random.random() < 0.05:
            return self.random.choice(
                [-(1 << 31), (1 << 31) - 1, ticks * self.frames, self.random.randrange(1 << 32)]
            )
        if self.random.random() < 0.5:
            return self.frames * self.random.randrange(-2, ticks + 2)
        return self.random.randrange(-2 * self.frames - 1, (ticks + 1) * self.frames + 1)

    def head(self, frame: int) -> bytes:
        """A head, of which some have CSRCs, an extension, padding or a marker; without what follows
        the fixed part.
        """
        first = (
            0x80
            if self.random.random() < 0.7
            else 0x80 | self.random.choice([0x01, 0x02, 0x10, 0x20, 0x31, 0x0F])
        )
        second = 0x60 if self.random.random() < 0.9 else self.random.choice([0xE0, 0x61])
        timestamp = (self.base * self.frames + frame) % (1 << 32)
        return (
            bytes([first, second])
            + self.random.randbytes(2)
            + timestamp.to_bytes(4, "big")
            + self.random.randbytes(4)
        )

    def around(self, head: bytes, payload: bytes) -> bytes:
        """The packet of a head: what its first byte says stands around the payload."""
        packet = head + self.random.randbytes(4 * (head[0] & 15))
        if head[0] & 0x10:
            words = self.random.randrange(3)
            packet += (
                self.random.randbytes(2)
                + words.to_bytes(2, "big")
                + self.random.randbytes(4 * words)
            )
        padding = self.random.randint(1, 5) if head[0] & 0x20 else 0
        return (
            packet
            + payload
            + self.random.randbytes(max(0, padding - 1))
            + bytes([padding])[: min(padding, 1)]
        )

    def packet(self, source: int, ticks: int) -> bytes:
        """A packet's record: most are of RTP and of whole frames, some cut, and some any bytes."""
        count = (
            self.frames
            if self.random.random() < 0.5
            else self.random.randrange(3 * self.frames + 1)
        )
        payload = self.random.randbytes(count * self.inputs[source] * self.bits[source] // 8)
        packet = self.around(self.head(self.frame(ticks)), payload)
        chance = self.random.random()
        if chance < 0.1:
            packet = packet[: self.random.randrange(len(packet) + 1)]
        elif chance < 0.15:
            packet = self.random.randbytes(self.random.choice([0, 1, 11, 12, 16, 40, 2000]))
        elif chance < 0.2:
            place = self.random.randrange(min(20, len(packet)))
            packet = packet[:place] + self.random.randbytes(1) + packet[place + 1 :]
        return model.record(b"P", bytes([source]) + packet)

    def changes(self, output: int) -> bytes:
        """What an activation changes of an output: a whole row, or some cells of it."""
        channels = self.outputs[output] if output < len(self.outputs) else 2
        if self.random.random() < 0.5:
            cells = [bytes([channel]) + cell for channel, cell in enumerate(self.row(channels))]
        else:
            channels += self.random.random() < 0.05
            named = sorted(self.random.sample(range(channels), self.random.randint(0, channels)))
            cells = [bytes([channel]) + self.cell() for channel in named]
        return bytes([output, len(cells)]) + b"".join(cells)

    def when(self) -> bytes:
        """At once, at a time near the session's first ticks, or after a time."""
        op = self.random.choice([0, 0, 1, 2])
        if op == 0:
            return b"\0"
        frames = (self.random.randint(0, 6) + (self.base if op == 1 else 0)) * self.frames
        if self.random.random() < 0.5:
            frames += self.random.randrange(self.frames)
        nanos = max(0, frames * model.BILLION // 48000 + self.random.choice([-1, 0, 0, 1]))
        if self.random.random() < 0.05:
            nanos = model.SECONDS * model.BILLION - self.random.randint(1, 50_000)
        seconds, nanos = divmod(nanos, model.BILLION)
        return bytes([op]) + seconds.to_bytes(8, "big") + nanos.to_bytes(4, "big")

    def request(self) -> bytes:
        op = self.random.choice([0, 0, 0, 3, 4, 5])
        client = bytes([self.random.choice([0, 1, 15])])
        if op == 3:
            return model.record(b"A", client + b"\3" + self.random.randint(0, 4).to_bytes(8, "big"))
        if op > 3:
            return model.record(b"A", client + bytes([op]))
        few = 0 if self.random.random() < 0.05 else 1
        most = len(self.outputs) + (self.random.random() < 0.05)
        outputs = sorted(self.random.sample(range(most), self.random.randint(few, most)))
        action = bytes([len(outputs)]) + b"".join(self.changes(output) for output in outputs)
        return model.record(b"A", client + self.when() + action)

    def records(self) -> list[bytes]:
        """The records between the device and the last one."""
        ticks = self.random.randint(0, 5)
        claims = ticks * len(self.outputs)
        records = [self.request() for _ in range(self.random.randint(0, 12))]
        while claims > 0:
            part = self.random.randint(0, claims)
            records.insert(
                self.random.randint(0, len(records)), model.record(b"T", part.to_bytes(4, "big"))
            )
            claims -= part
        for source in range(len(self.inputs)):
            for _ in range(self.random.randint(0, ticks + 3)):
                records.insert(self.random.randint(0, len(records)), self.packet(source, ticks))
        return records

    def whole(self, records: list[bytes]) -> bytes:
        """The capture of these records after the device and the grain."""
        return self.begun([*self.grain_record(), *records])

    def begun(self, records: list[bytes]) -> bytes:
        """The magic and the device with all records after them."""
        magic = b"CHMCAP%d\n" % self.format
        return magic + self.device() + b"".join(records) + model.record(b"E", b"")

    def grain_record(self) -> list[bytes]:
        return [] if self.grain is None else [model.record(b"G", bytes([self.grain]))]

    def damaged(self) -> bytes:
        """A capture with a record twice, two records the other way round, or a byte changed, left
        out or put in.
        """
        records = [*self.grain_record(), *self.records()]
        if records and self.random.random() < 0.3:
            records.insert(self.random.randint(0, len(records)), self.random.choice(records))
            return self.begun(records)
        if records and self.random.random() < 0.3:
            one, other = self.random.randrange(len(records)), self.random.randrange(len(records))
            records[one], records[other] = records[other], records[one]
            return self.begun(records)
        data = self.begun(records)
        place = self.random.randrange(len(data))
        byte = bytes(
            [self.random.choice([0, 1, 2, 254, 255, data[place] ^ 1, self.random.randrange(256)])]
        )
        return (
            data[:place]
            + self.random.choice([byte + data[place + 1 :], data[place + 1 :], byte + data[place:]])
        )


class HttpCaptures(Captures):
    """Captures with clients that speak HTTP beside plain ones; most devices are JSON."""

    def device(self) -> bytes:
        if self.random.random() < 0.2:
            return super().device()
        return model.record(b"J", self.json_device())

    def few(self, values: dict[str, object]) -> dict[str, object]:
        """Some of the members that a device need not tell."""
        return {key: value for key, value in values.items() if self.random.random() < 0.5}

    def uuid(self) -> str:
        digits = "%032x" % self.random.getrandbits(128)
        hyphenated = "-".join([digits[:8], digits[8:12], digits[12:16], digits[16:20], digits[20:]])
        forms = [digits.upper(), hyphenated, f"{{{hyphenated}}}", f"urn:uuid:{hyphenated}"]
        return self.random.choice(forms)

    def labels(self, channels: int) -> list[dict[str, object]]:
        return [{"label": self.random.choice(LABELS), "other": 1} for _ in range(channels)]

    def json_port(self, name: str, channels: int, bits: int) -> dict[str, object]:
        return {"id": name, "channels": self.labels(channels), "width": bits}

    def json_input(self, number: int) -> dict[str, object]:
        one = self.json_port(chr(97 + number), self.inputs[number], self.bits[number])
        one.update({"payload_type": 96, "block_size": self.blocks[number]})
        kind = self.random.choice(["source", "receiver"])
        parent = self.random.choice([None, {"type": kind, "id": self.uuid()}])
        one.update(self.few({"name": "In \u2615", "description": "d", "parent": parent}))
        one.update(self.few({"reordering": False}))
        return one

    def json_output(self, number: int) -> dict[str, object]:
        row = self.row(self.outputs[number])
        one = self.json_port(chr(120 + number), len(row), self.random.choice([16, 24]))
        one.update({"payload_type": 97, "ssrc": self.random.getrandbits(32)})
        source = self.random.choice([None, self.uuid()])
        one.update(self.few({"name": "Out", "description": "", "source_id": source}))
        if any(cell[0] < 255 for cell in row) or self.random.random() < 0.5:
            one["map"] = [self.json_from(cell) if cell[0] < 255 else None for cell in row]
        routable = self.routable(row)
        if routable != b"\xff":
            names = [None if member == 254 else chr(97 + member) for member in routable[1:]]
            one["routable_inputs"] = names
        return one

    def json_device(self) -> bytes:
        """The device of these inputs and outputs; few texts are out of order."""
        value: dict[str, object] = {"rate": 48000, "frames": self.frames}
        value.update({"base": self.base, "hold": self.hold})
        value["inputs"] = [self.json_input(number) for number in range(len(self.inputs))]
        value["outputs"] = [self.json_output(number) for number in range(len(self.outputs))]
        if self.random.random() < 0.1:
            value[self.random.choice(list(value))] = self.random.choice(NO_FIELDS)
        is_ascii, indent = self.random.random() < 0.5, self.random.choice([None, 1])
        return json.dumps(value, ensure_ascii=is_ascii, indent=indent).encode()

    @staticmethod
    def json_from(cell: bytes) -> dict[str, object]:
        return {"input": chr(97 + cell[0]), "channel_index": cell[1]}

    def json_cell(self) -> object:
        if self.random.random() < 0.04:
            return self.random.choice(NO_CELLS)
        cell = self.cell()
        if cell[0] == 255:
            return self.random.choice([{"input": None, "channel_index": None}, {}, {"other": 1}])
        return self.json_from(cell)

    def json_changes(self, channels: int) -> object:
        if self.random.random() < 0.02:
            return self.random.choice([None, [], "x"])
        there = range(channels + (self.random.random() < 0.1))
        named = self.random.sample(there, self.random.randint(0, channels))
        keys = [str(channel) for channel in named]
        if self.random.random() < 0.05:
            keys.append(self.random.choice(NO_CHANNELS))
        return {key: self.json_cell() for key in keys}

    def json_action(self) -> dict[str, object]:
        count = self.random.randint(self.random.random() >= 0.1, len(self.outputs))
        action = {}
        for number in self.random.sample(range(len(self.outputs)), count):
            action[chr(120 + number)] = self.json_changes(self.outputs[number])
        if self.random.random() < 0.03:
            action["zz"] = {}
        return action

    def body(self) -> bytes:
        """The body of a POST, of which few are out of order."""
        when = self.when()
        activation: dict[str, object] = {"mode": MODES[when[0]]}
        if when[0] > 0:
            seconds, nanos = int.from_bytes(when[1:9], "big"), int.from_bytes(when[9:], "big")
            activation["requested_time"] = f"{seconds}:{nanos}"
        value = {"activation": activation, "action": self.json_action()}
        chance = self.random.random()
        if chance < 0.05:
            value.pop(self.random.choice(list(value)))
        elif chance < 0.1:
            key = self.random.choice(["mode", "requested_time"])
            activation[key] = self.random.choice(NO_TIMES)
        body = json.dumps(value).encode()
        if self.random.random() < 0.05:
            others = [body[:-1], b"", b"[" * 128 + b"]" * 128, b"[]", b"\xff", body + b" x", b"01"]
            return self.random.choice(others)
        return body

    def target(self) -> str:
        if self.random.random() < 0.1:
            return self.random.choice(TARGETS)
        path = self.random.choice(PATHS)
        if path.count("/") == 2 and not path.startswith("/map"):
            path += self.random.choice(PARTS)
        return API + path + self.random.choice(["", "", "", "?a=1"])

    def fields(self, body: bytes, is_post: bool) -> list[str]:
        """The fields of a request, of which few make it be refused, or close."""
        fields = ["Host: chanmap"] + [f"Content-Length: {len(body)}"] * is_post
        if self.random.random() < 0.04:
            length = f"content-length:\t{self.random.choice(NO_LENGTHS)} "
            fields.append(self.random.choice(["Transfer-Encoding: chunked", length]))
        if self.random.random() < 0.04:
            fields.append(self.random.choice(CONNECTIONS))
        return fields

    def http(self) -> bytes:
        method = self.random.choice(METHODS)
        target, body = self.target(), b""
        if method == "POST":
            target, body = API + "/map/activations", self.body()
        if method == "DELETE" and self.random.random() < 0.8:
            target = f"{API}/map/activations/{self.random.randint(0, 4)}"
        version = "HTTP/1.0" if self.random.random() < 0.02 else "HTTP/1.1"
        end = self.random.choice(["\r\n", "\r\n", "\n"])
        lines = [f"{method} {target} {version}", *self.fields(body, method == "POST"), "", ""]
        return self.random.choice([b"", b"", b"\r\n"]) + end.join(lines).encode() + body

    def stream(self) -> list[bytes]:
        """The bytes of a client, in pieces."""
        data = b"".join(self.http() for _ in range(self.random.randint(1, 5)))
        if self.random.random() < 0.05:
            data += self.random.choice(NO_HEADS)
        cuts = range(self.random.choice([0, 1, 3, 8]))
        places = sorted(self.random.randrange(len(data) + 1) for _ in cuts)
        return [data[start:end] for start, end in zip([0, *places], [*places, len(data)])]

    def records(self) -> list[bytes]:
        records = super().records()
        for client in self.random.sample(range(16), self.random.randint(1, 3)):
            pieces = [model.record(b"Q", bytes([client]) + piece) for piece in self.stream()]
            places = sorted(self.random.randint(0, len(records)) for _ in pieces)
            for place, piece in reversed(list(zip(places, pieces))):
                records.insert(place, piece)
        return records
