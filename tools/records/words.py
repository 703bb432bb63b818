"""The words of records: each on one line, but for a device, whose ports have lines of their own."""

from __future__ import annotations

from typing import Optional

from records.reading import Record, Values, counted, quoted

DEFAULT_SAMPLES = 4
BYTES_OF_UNKNOWN_SAMPLE = 3
OFFSET_LENGTH = 8


def packet_words(values: Values, samples: int) -> str:
    """The head, and the first samples in hexadecimal, frame by frame (bytes of no known port)."""
    text = f"type {values['type']}, sequence {values['sequence']}, timestamp {values['timestamp']}"
    text += f", SSRC {values['ssrc']}{', marker' if values['marker'] else ''}"
    if values["csrcs"]:
        text += f", {counted(len(values['csrcs']), 'CSRC')}"
    if values["extension_words"] is not None:
        text += f", extension of {counted(values['extension_words'], 'word')}"
    if values["padding_bytes"]:
        text += f", {counted(values['padding_bytes'], 'padding byte')}"
    return text + payload_words(values, samples)


def payload_words(values: Values, samples: int) -> str:
    payload, known = bytes.fromhex(values["payload"]), "channels" in values
    size = (values["sample_bytes"] if known else 0) or 1
    shown = payload[: samples * (size if known else BYTES_OF_UNKNOWN_SAMPLE)]
    words = [shown[at : at + size].hex() for at in range(0, len(shown), size)]
    step = (values["channels"] if known else 0) or len(words) or 1
    frames = [" ".join(words[at : at + step]) for at in range(0, len(words), step)]
    text = f", {counted(len(payload), 'payload byte')}{': ' if frames else ''}"
    return f"{text}{' | '.join(frames)}{' ..' if 0 < len(shown) < len(payload) else ''}"


def cell_words(cell: Optional[Values]) -> str:
    return "unrouted" if cell is None else f"{cell['input']} {cell['channel']}"


def row_words(row: list[Optional[Values]], before: str = "") -> list[str]:
    return [f"{before}{channel} <- {cell_words(cell)}" for channel, cell in enumerate(row)]


def port_words(values: Values) -> str:
    text = f"{values['id']}: {counted(values['channels'], 'channel')}, L{values['bits']}"
    return f"{text}, type {values['type']}"


def input_words(values: Values) -> str:
    order = "reordering" if values["reordering"] else "no reordering"
    return f"input {port_words(values)}, block size {values['block_size']}, {order}"


def output_words(values: Values) -> str:
    text, routable = f"output {port_words(values)}, SSRC {values['ssrc']}", "all"
    if values["routable"] is not None:
        routable = " ".join("unrouted" if m is None else m for m in values["routable"]) or "none"
    return f"{text}, routable {routable}, base row {', '.join(row_words(values['row']))}"


def device_words(values: Values) -> str:
    """The device; inputs and outputs stand on indented lines, in a plain one with their offsets."""
    if "json" in values and "rate" not in values:
        return f"JSON {values['json']}"
    text = f"{'as JSON, ' if 'json' in values else ''}{values['rate']} Hz"
    text += f", {counted(values['frames'], 'frame')} a tick"
    text += f", base {values['base']}, hold {values['hold']}"
    text += f", {counted(len(values['inputs']), 'input')}"
    text += f", {counted(len(values['outputs']), 'output')}"
    ports = [(one.get("at", ""), input_words(one)) for one in values["inputs"]]
    ports += [(one.get("at", ""), output_words(one)) for one in values["outputs"]]
    return text + "".join(f"\n{at:>{OFFSET_LENGTH}}    {words}" for at, words in ports)


def action_words(action: list[Values]) -> str:
    changes: list[str] = []
    for change in action:
        cells = [f"{one['channel']} <- {cell_words(one['cell'])}" for one in change["cells"]]
        changes += [f"{change['output']} {cell}" for cell in cells or ["as it is"]]
    return ", ".join(changes) or "no output"


def when_words(values: Values) -> str:
    return f"{values['mode']} {values['time']}" if "time" in values else values["mode"]


def request_words(values: Values) -> str:
    if values["ask"] == "activation":
        return f"activation {when_words(values)}: {action_words(values['action'])}"
    return f"deletion of id {values['deletes']}" if values["ask"] == "deletion" else values["ask"]


def moment_words(values: Values) -> str:
    """The tick, and the frame of it where the format tells one."""
    return f"tick {values['tick']}" + (f", frame {values['frame']}" if "frame" in values else "")


def dated_words(values: Values) -> str:
    return f"id {values['id']}, {when_words(values)}, {moment_words(values)}"


def active_words(values: Values) -> str:
    dated = dated_words(values["activation"]) if values["activation"] else "no activation"
    if "bytes" in values:
        return f"active, {dated}: {bytes.fromhex(values['bytes']).hex(' ', 2)}"
    rows = [row_words(row, f"{output} ") for output, row in values["rows"].items()]
    return f"active, {dated}: {', '.join(cell for row in rows for cell in row)}"


def pending_words(values: Values) -> str:
    items = [f"{dated_words(one)}: {action_words(one['action'])}" for one in values["items"]]
    return f"pending, {'; '.join(items) or 'none'}"


# The replies whose words are a pattern over their values.
REPLY_PATTERNS: dict[str, str] = {
    "activated": "activated, id {id}, {moment}",
    "scheduled": "scheduled, id {id}, {moment}",
    "deleted": "deleted, id {id}",
    "no output named": "refused, no output named",
    "unknown output": "refused, output {output} isn't there",
    "no such channel": "refused, output {output} has no channel {channel}",
    "output locked": "refused, output {output} is locked",
    "row": "refused, output {output}: {check} at channel {channel}",
    "time out of range": "refused, time out of range",
    "not pending": "refused, id {id} isn't pending",
}


def response_words(values: Values) -> str:
    """A response by its status and body; bytes that are none as they stand."""
    if "status" not in values:
        return f"HTTP {values['text']}"
    text = f"HTTP {values['status']} {values['reason']}"
    text += f", allowed: {values['allow']}" if values["allow"] else ""
    text += ", closes" if values["closes"] else ""
    return f"{text}{': ' if values['body'] else ''}{quoted(values['body'].encode())}"


def stream_words(values: Values) -> str:
    """Whole requests by their method, target and body; another piece as it stands."""
    if "requests" not in values:
        return f"piece: {values['text']}"
    requests = [f"{one['method']} {one['target']}" for one in values["requests"]]
    bodies = [one["body"] and f": {one['body']}" for one in values["requests"]]
    return "; ".join(f"{one}{quoted(body.encode())}" for one, body in zip(requests, bodies))


def reply_words(values: Values) -> str:
    if values["form"] == "HTTP":
        return response_words(values)
    if values["reply"] == "active":
        return active_words(values)
    if values["reply"] == "pending":
        return pending_words(values)
    moment = moment_words(values) if "tick" in values else ""
    return REPLY_PATTERNS[values["reply"]].format(moment=moment, **values)


def packet_record_words(values: Values, samples: int) -> str:
    if "no_packet" in values:
        length = counted(len(values["bytes"]) // 2, "byte")
        return f"input {values['input']}, no RTP packet ({values['no_packet']}), {length}"
    return f"input {values['input']}, {packet_words(values, samples)}"


def claim_words(values: Values, samples: int) -> str:
    text = str(values["claim"])
    if "output" in values:
        text += f", output {values['output']}, tick {values['tick']}"
    found = " ".join(values["found"]) or "none"
    return f"{text}, found {found}, {packet_words(values, samples)}"


def call_words(values: Values) -> str:
    text = f"at {counted(values['claims'], 'claim')}, client {values['client']}"
    return f"{text}, id {values['id']}, {moment_words(values)}, {request_words(values)}"


def reply_record_words(values: Values) -> str:
    text = f"client {values['client']}, at {counted(values['calls'], 'call')}"
    return f"{text} and {counted(values['claims'], 'claim')}, {reply_words(values)}"


def words_of(record: Record, samples: int = DEFAULT_SAMPLES) -> str:
    """What a record says, after its kind."""
    values = record.values
    if record.kind in ("capture", "result"):
        return "" if values["format"] == 1 else f"format {values['format']}"
    if record.kind == "grain":
        return values["grain"]
    if record.kind == "device":
        return device_words(values)
    if record.kind == "packet":
        return packet_record_words(values, samples)
    if record.kind == "claim":
        return claim_words(values, samples)
    if record.kind == "stream":
        return f"client {values['client']}, {stream_words(values)}"
    if record.kind == "request":
        return f"client {values['client']}, {request_words(values)}"
    if record.kind == "work":
        return counted(values["claims"], "claim")
    if record.kind == "call":
        return call_words(values)
    return reply_record_words(values) if record.kind == "reply" else ""


def line_of(record: Record, samples: int = DEFAULT_SAMPLES) -> str:
    """A record's line, with its offset; a fault's has its offset after its kind."""
    if record.kind == "fault":
        return f"{record.values['fault']} at {record.at}: {record.values['found']}"
    words = words_of(record, samples)
    return f"{record.at:>{OFFSET_LENGTH}}  {f'{record.kind:<8} {words}' if words else record.kind}"
