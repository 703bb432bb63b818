"""Tests of tools/show and of what it stands on, tools/records."""

from __future__ import annotations

import errno
import json
import os
import pathlib
import random
import re
import subprocess
import sys
import tempfile
import unittest

sys.dont_write_bytecode = True
TOOLS = pathlib.Path(__file__).resolve().parents[1]
sys.path.insert(0, str(TOOLS))
from records.reading import Device, Port, Record, View, quoted, read  # noqa: E402
from records.text import unquoted  # noqa: E402
from records.timeline import ruler, timeline  # noqa: E402
from records.words import DEFAULT_SAMPLES, line_of as words_line  # noqa: E402

PROGRAM = TOOLS / "show"
CRATE = TOOLS.parent / "crates" / "chanmap"

CAPTURE_MAGIC = "43484d434150310a"
RESULT_MAGIC = "43484d524553310a"
END = "45 00000000"
DEVICE = """0000bb80 0002 0000000000000000 01 01 02
    01 61 02 10 60 01 01
    01 78 02 10 60 00000001 ff ff00 ff00
    01 79 02 18 61 00000002 ff ff00 ff00"""
CAPTURE = bytes.fromhex(
    f"""{CAPTURE_MAGIC}
    44 00000034 {DEVICE}
    50 00000015 00 8060 0000 00000004 00000063 1111 2222 3333 4444
    54 00000004 00000003
    41 0000000d 00 00 02 00 01 000000 01 01 000001
    54 00000004 00000003
    {END}"""
)
RESULT = bytes.fromhex(
    f"""{RESULT_MAGIC}
    43 0000001d 0000000000000000 00 8060 0000 00000000 00000001 0000000000000000
    43 00000021 0000000000000001 00 8061 0000 00000000 00000002 000000000000000000000000
    43 0000001d 0000000000000002 00 8060 0001 00000002 00000001 0000000000000000
    48 00000025 0000000000000003 00 0000000000000001 0000000000000002 00 02 00 01 000000 01 01 000001
    52 00000023 00 0000000000000000 0000000000000003 01 00 0000000000000001 0000000000000002
    43 00000021 0000000000000003 00 8061 0001 00000002 00000002 000000000000000000000000
    43 0000001d 0000000000000004 01 8060 0002 00000004 00000001 1111 0000 3333 0000
    43 00000021 0000000000000005 01 8061 0002 00000004 00000002 222200 000000 444400 000000
    {END}"""
)
CAPTURE_LINES = """\
       0  capture
       8  device   48000 Hz, 2 frames a tick, base 0, hold 1, 1 input, 2 outputs
      30    input a: 2 channels, L16, type 96, block size 1, reordering
      37    output x: 2 channels, L16, type 96, SSRC 1, routable all, base row 0 <- unrouted, 1 <- unrouted
      51    output y: 2 channels, L24, type 97, SSRC 2, routable all, base row 0 <- unrouted, 1 <- unrouted
      65  packet   input a, type 96, sequence 0, timestamp 4, SSRC 99, 8 payload bytes: 1111 2222 | 3333 4444
      91  work     3 claims
     100  request  client 0, activation at once: x 0 <- a 0, y 0 <- a 1
     118  work     3 claims
     127  end
"""
RESULT_LINES = """\
       0  result
       8  claim    0, output x, tick 0, found none, type 96, sequence 0, timestamp 0, SSRC 1, 8 payload bytes: 0000 0000 | 0000 0000
      42  claim    1, output y, tick 0, found none, type 97, sequence 0, timestamp 0, SSRC 2, 12 payload bytes: 000000 000000 | 000000 000000
      80  claim    2, output x, tick 1, found none, type 96, sequence 1, timestamp 2, SSRC 1, 8 payload bytes: 0000 0000 | 0000 0000
     114  call     at 3 claims, client 0, id 1, tick 2, activation at once: x 0 <- a 0, y 0 <- a 1
     156  reply    client 0, at 0 calls and 3 claims, activated, id 1, tick 2
     196  claim    3, output y, tick 1, found none, type 97, sequence 1, timestamp 2, SSRC 2, 12 payload bytes: 000000 000000 | 000000 000000
     234  claim    4, output x, tick 2, found a, type 96, sequence 2, timestamp 4, SSRC 1, 8 payload bytes: 1111 0000 | 3333 0000
     268  claim    5, output y, tick 2, found a, type 97, sequence 2, timestamp 4, SSRC 2, 12 payload bytes: 222200 000000 | 444400 000000
     306  end
"""


def lines_of(
    data: bytes, view: View | None = None, samples: int = DEFAULT_SAMPLES
) -> tuple[list[str], list[str]]:
    """The lines and, of these, the faults."""
    view = view or View()
    lines = [words_line(one, samples) for one in read(data, view)]
    return lines, [words_line(one) for one in view.faults]


def record(tag: str, body: str) -> str:
    return f"{ord(tag):02x} {len(bytes.fromhex(body)):08x} {body}"


def line_of(tag: str, body: str, with_device: bool = True) -> str:
    """The line of one record, without its offset, of a text that has no fault."""
    if tag in "DJPQAT":
        device = record("D", DEVICE) if with_device else ""
        lines, faults = lines_of(bytes.fromhex(CAPTURE_MAGIC + device + record(tag, body) + END))
    else:
        view = View()
        if with_device:
            list(read(CAPTURE, view))
        lines, faults = lines_of(bytes.fromhex(RESULT_MAGIC + record(tag, body) + END), view)
    if faults:
        raise AssertionError(faults)
    return lines[-2][10:]


def faults_of(data: str) -> list[str]:
    return lines_of(bytes.fromhex(data))[1]


def run(*words: str, data: bytes = b"") -> tuple[int, str, str]:
    done = subprocess.run(
        [sys.executable, str(PROGRAM), *words], input=data, capture_output=True, check=False
    )
    return done.returncode, done.stdout.decode(), done.stderr.decode()


class WorkedBytes(unittest.TestCase):
    def test_lengths(self) -> None:
        self.assertEqual((len(CAPTURE), len(RESULT)), (132, 311))

    def test_stored_run(self) -> None:
        self.assertEqual((CRATE / "stdin").read_bytes(), CAPTURE)
        self.assertEqual((CRATE / "stdout").read_bytes(), RESULT)
        self.assertEqual((CRATE / "args").read_text(), "serial\n")

    def test_worked_example_of_the_document(self) -> None:
        text = (TOOLS.parent / "docs" / "EXAMPLE.md").read_text(encoding="utf-8")
        _, capture, result = text.split("\n## The ")
        for part, data in ((capture, CAPTURE), (result, RESULT)):
            spelled = b""
            for at, digits in re.findall(r"^\| (\d+) \| `([0-9a-f ]+)` \|", part, re.MULTILINE):
                self.assertEqual(int(at), len(spelled))
                spelled += bytes.fromhex(digits)
            self.assertEqual(spelled, data)

    def test_capture(self) -> None:
        lines, faults = lines_of(CAPTURE)
        self.assertEqual("\n".join(lines) + "\n", CAPTURE_LINES)
        self.assertEqual(faults, [])

    def test_result_with_device(self) -> None:
        view = View()
        list(read(CAPTURE, view))
        lines, faults = lines_of(RESULT, view)
        self.assertEqual("\n".join(lines) + "\n", RESULT_LINES)
        self.assertEqual(faults, [])

    def test_both_behind_one_another(self) -> None:
        lines, faults = lines_of(CAPTURE + RESULT)
        self.assertEqual(faults, [])
        behind = [f"{int(line[:8]) + 132:>8}{line[8:]}" for line in RESULT_LINES.splitlines()]
        self.assertEqual("\n".join(lines).splitlines(), CAPTURE_LINES.splitlines() + behind)

    def test_result_alone_has_numbers(self) -> None:
        lines, faults = lines_of(RESULT)
        self.assertEqual(faults, [])
        self.assertIn("activation at once: #0 0 <- #0 0, #1 0 <- #0 1", lines[4])
        self.assertEqual(
            lines[7],
            "     234  claim    4, found #0, type 96, sequence 2, timestamp 4, SSRC 1, "
            "8 payload bytes: 11 11 00 00 33 33 00 00",
        )

    def test_number_of_samples(self) -> None:
        lines, _ = lines_of(CAPTURE, samples=3)
        self.assertTrue("\n".join(lines).splitlines()[5].endswith(": 1111 2222 | 3333 .."))
        lines, _ = lines_of(CAPTURE, samples=0)
        self.assertTrue("\n".join(lines).splitlines()[5].endswith(", 8 payload bytes"))
        lines, _ = lines_of(RESULT, samples=1)
        self.assertTrue(lines[1].endswith(", 8 payload bytes: 00 00 00 .."))


# A change at frame 1 of tick 1, in a capture of format 2 with the grain of frames.
FRAME_CAPTURE = bytes.fromhex(
    f"""43484d434150320a
    44 00000034 {DEVICE}
    47 00000001 01
    50 00000015 00 8060 0000 00000002 00000063 1111 2222 3333 4444
    41 00000014 00 01 0000000000000000 0000f424 01 00 01 000000
    54 00000004 00000004
    {END}"""
)
FRAME_RESULT = bytes.fromhex(
    f"""43484d524553320a
    48 0000002e 0000000000000000 00 0000000000000001 0000000000000001 0001
       01 0000000000000000 0000f424 01 00 01 000000
    52 00000025 00 0000000000000000 0000000000000000 01 01 0000000000000001 0000000000000001 0001
    43 0000001d 0000000000000000 00 8060 0000 00000000 00000001 0000000000000000
    43 00000021 0000000000000001 00 8061 0000 00000000 00000002 000000000000000000000000
    43 0000001d 0000000000000002 01 8060 0001 00000002 00000001 0000 0000 3333 0000
    43 00000021 0000000000000003 00 8061 0001 00000002 00000002 000000000000000000000000
    {END}"""
)


class FormatTwo(unittest.TestCase):
    def test_worked_bytes(self) -> None:
        self.assertEqual((len(FRAME_CAPTURE), len(FRAME_RESULT)), (136, 250))
        lines, faults = lines_of(FRAME_CAPTURE + FRAME_RESULT)
        self.assertEqual(faults, [])
        for line in (
            "       0  capture  format 2",
            "      65  grain    frame",
            "     136  result   format 2",
            "     144  call     at 0 claims, client 0, id 1, tick 1, frame 1, "
            "activation at 0:62500: x 0 <- a 0",
            "     195  reply    client 0, at 0 calls and 0 claims, scheduled, id 1, tick 1, frame 1",
            "     309  claim    2, output x, tick 1, found a, type 96, sequence 1, timestamp 2, "
            "SSRC 1, 8 payload bytes: 0000 0000 | 3333 0000",
        ):
            self.assertIn(line, lines)

    def test_replies_that_tell_a_frame(self) -> None:
        one, two, frame = f"{1:016x}", f"{2:016x}", f"{2:016x} 00ef"
        for answer, words in {
            f"00 {one} {frame}": "activated, id 1, tick 2, frame 239",
            f"02 {one}": "deleted, id 1",
            f"03 01 {one} 00 {frame} ff00 ff00 ff00 ff00": "active, id 1, at once, tick 2, "
            "frame 239: x 0 <- unrouted, x 1 <- unrouted, y 0 <- unrouted, y 1 <- unrouted",
            f"04 02 {one} 01 {two} 00000003 {frame} 00 {two} 02 {one} 00000000 {one} 0000 00": ""
            "pending, id 1, at 2:3, tick 2, frame 239: no output; id 2, after 1:0, tick 1, frame 0: "
            "no output",
        }.items():
            with self.subTest(answer=answer):
                reply = record("R", f"02 {0:016x} {1:016x} 01 {answer}")
                data = FRAME_CAPTURE + FRAME_RESULT[:8] + bytes.fromhex(reply + END)
                lines, faults = lines_of(data)
                self.assertEqual(faults, [])
                self.assertTrue(lines[-2].endswith(f", at 0 calls and 1 claim, {words}"), lines[-2])

    def test_faults(self) -> None:
        two = FRAME_CAPTURE[:8].hex()
        for data, words in (
            (two + "47 00000001 02" + END, "unknown at 8: grain 02 (record 47)"),
            (two + "47 00000000" + END, "wrong length at 8: field of 1 at 13, 0 there (record 47)"),
            (CAPTURE_MAGIC + "47 00000001 01" + END, "unknown at 8: capture record with tag 47"),
            ("43484d524553320a 47 00000001 01" + END, "unknown at 8: result record with tag 47"),
        ):
            with self.subTest(words=words):
                self.assertEqual(faults_of(data), [words])


class Records(unittest.TestCase):
    def test_whole_device(self) -> None:
        body = """0000ac44 00f0 0000000000000007 40 02 01
            02 6964 04 18 61 02 00   01 62 01 10 00 01 01
            01 78 02 18 7f ffffffff 03 00 01 fe 01 00 00 03"""
        device = f"{CAPTURE_MAGIC} {record('D', body)} {END}"
        lines, faults = lines_of(bytes.fromhex(device))
        self.assertEqual(faults, [])
        self.assertEqual(
            [line[10:] for line in lines[1].splitlines()],
            [
                "device   44100 Hz, 240 frames a tick, base 7, hold 64, 2 inputs, 1 output",
                "  input id: 4 channels, L24, type 97, block size 2, no reordering",
                "  input b: 1 channel, L16, type 0, block size 1, reordering",
                "  output x: 2 channels, L24, type 127, SSRC 4294967295, "
                "routable id b unrouted, base row 0 <- b 0, 1 <- id 3",
            ],
        )

    def test_base_is_the_first_tick(self) -> None:
        view = View(Device(5, 1, [], [Port("x", 1, 16), Port("y", 1, 24)]))
        packet = "8061 0007 00000007 00000002 000000"
        data = RESULT_MAGIC + record("C", f"0000000000000005 {packet}") + END
        lines, faults = lines_of(bytes.fromhex(data), view)
        self.assertEqual(faults, [])
        self.assertIn("claim    5, output y, tick 7, found none,", lines[1])

    def test_text_records(self) -> None:
        self.assertEqual(line_of("J", "7b22c3bc223a317d0a", False), 'device   JSON {"ü":1}\\n')
        self.assertEqual(
            line_of("Q", "03 474554202f20ff0d0a"), "stream   client 3, piece: GET / \\xff\\r\\n"
        )

    def test_a_device_as_json(self) -> None:
        text = """{"rate":48000,"frames":2,"hold":3,
            "inputs":[{"id":"a","channels":[{"label":"L"}],"width":16,"payload_type":96,"block_size":1}],
            "outputs":[{"id":"x","channels":[{"label":"1"},{"label":"2"}],"width":24,"payload_type":97,
            "ssrc":7,"routable_inputs":["a",null],"map":[null,{"input":"a","channel_index":0}]}]}"""
        lines = line_of("J", text.encode().hex(), False).splitlines()
        self.assertEqual(
            [line.strip() for line in lines],
            [
                "device   as JSON, 48000 Hz, 2 frames a tick, base 0, hold 3, 1 input, 1 output",
                "input a: 1 channel, L16, type 96, block size 1, reordering",
                "output x: 2 channels, L24, type 97, SSRC 7, routable a unrouted, "
                "base row 0 <- unrouted, 1 <- a 0",
            ],
        )
        view = View()
        capture = (
            CAPTURE_MAGIC + record("J", text.encode().hex()) + record("P", "00" + "80" * 11) + END
        )
        list(read(bytes.fromhex(capture), view))
        self.assertEqual(view.device.outputs, [Port("x", 2, 24)])
        self.assertEqual((view.device.rate, view.device.frames, view.device.base), (48000, 2, 0))

    def test_a_device_as_json_that_says_no_lines(self) -> None:
        for text in (
            "", "[]", "1", '{"rate":1,"frames":1,"inputs":[],"outputs":[{}]}', "\xff", '{"a":'
        ):
            with self.subTest(text=text):
                shown = line_of("J", text.encode("latin-1").hex(), False)
                self.assertEqual(shown, f"device   JSON {quoted(text.encode('latin-1'))}")

    def test_requests_of_a_stream(self) -> None:
        post = "POST /x HTTP/1.1\r\ncontent-length: 2 \r\nHost: y\r\n\r\n{}"
        for text, words in {
            "GET /a?b HTTP/1.1\r\n\r\n": "GET /a?b",
            "GET /a HTTP/1.0\nHost: x\n\n": "GET /a",
            post: "POST /x: {}",
            post + post: "POST /x: {}; POST /x: {}",
            post[:-1]: f"piece: {quoted(post[:-1].encode())}",
            post + "G": f"piece: {quoted(post.encode())}G",
            "": "piece: ",
            "\r\n\r\n": "piece: \\r\\n\\r\\n",
        }.items():
            with self.subTest(text=text):
                line = line_of("Q", "01" + text.encode().hex())
                self.assertEqual(line.rstrip(), f"stream   client 1, {words}".rstrip())

    def test_responses(self) -> None:
        start = f"00 {1:016x} {0:016x} 00"
        words = "reply    client 0, at 1 call and 0 claims, HTTP "
        ok = "HTTP/1.1 200 OK\r\nContent-Length: 2\r\nConnection: keep-alive\r\n\r\n{}"
        refused = "HTTP/1.1 405 No Method\r\nAllow: GET, OPTIONS\r\nConnection: close\r\n\r\n[\n]"
        for text, shown in {
            ok: "200 OK: {}",
            refused: "405 No Method, allowed: GET, OPTIONS, closes: [\\n]",
            "HTTP/1.1 204 No Content\r\n\r\n": "204 No Content",
            "HTTP/1.1 204 No Content\r\n": "HTTP/1.1 204 No Content\\r\\n",
        }.items():
            with self.subTest(text=text):
                self.assertEqual(line_of("R", start + text.encode().hex()), words + shown)

    def test_requests(self) -> None:
        at = "0000000000000009 00000001"
        expected = {
            "00 00": "activation at once: no output",
            "00 01 02 00": "activation at once: #2 as it is",
            f"01 {at} 01 01 02 00 ff00 01 0001": "activation at 9:1: y 0 <- unrouted, y 1 <- a 1",
            f"02 {at} 01 00 01 01 0500": "activation after 9:1: x 1 <- #5 0",
            "03 0000000000000007": "deletion of id 7",
            "04": "reading of the active map",
            "05": "reading of the pending activations",
        }
        for body, words in expected.items():
            with self.subTest(body=body):
                self.assertEqual(line_of("A", f"0f {body}"), f"request  client 15, {words}")
                call = f"{1:016x} 0f {2:016x} {3:016x} {body}"
                start = "call     at 1 claim, client 15, id 2, tick 3, "
                self.assertEqual(line_of("H", call), start + words)

    def test_replies(self) -> None:
        one, two = f"{1:016x}", f"{2:016x}"
        expected = {
            f"00 {one} {two}": "activated, id 1, tick 2",
            f"01 {one} {two}": "scheduled, id 1, tick 2",
            f"02 {one}": "deleted, id 1",
            "03 00 ff00 0001 0000 ff00": "active, no activation: "
            "x 0 <- unrouted, x 1 <- a 1, y 0 <- a 0, y 1 <- unrouted",
            f"03 01 {one} 00 {two} ff00 ff00 ff00 ff00": "active, id 1, at once, tick 2: "
            "x 0 <- unrouted, x 1 <- unrouted, y 0 <- unrouted, y 1 <- unrouted",
            "04 00": "pending, none",
            f"04 02 {one} 01 {two} 00000003 {two} 01 00 01 00 ff00 {two} 02 {one} 00000000 {one} "
            "01 01 00": "pending, "
            "id 1, at 2:3, tick 2: x 0 <- unrouted; id 2, after 1:0, tick 1: y as it is",
            "10": "refused, no output named",
            "11 09": "refused, output #9 isn't there",
            "12 00 05": "refused, output x has no channel 5",
            "13 01": "refused, output y is locked",
            "14 00 01 00": "refused, output x: no input at channel 0",
            "14 00 02 01": "refused, output x: no input channel at channel 1",
            "14 01 03 00": "refused, output y: not routable at channel 0",
            "14 01 04 00": "refused, output y: block not whole at channel 0",
            "14 01 05 01": "refused, output y: block reordered at channel 1",
            "15": "refused, time out of range",
            f"16 {two}": "refused, id 2 isn't pending",
        }
        for answer, words in expected.items():
            with self.subTest(answer=answer):
                line = line_of("R", f"02 {0:016x} {1:016x} 01 {answer}")
                self.assertEqual(line, f"reply    client 2, at 0 calls and 1 claim, {words}")

    def test_replies_of_other_forms(self) -> None:
        start = f"00 {1:016x} {0:016x}"
        words = "reply    client 0, at 1 call and 0 claims, "
        self.assertEqual(line_of("R", f"{start} 00 485454500d0a"), f"{words}HTTP HTTP\\r\\n")
        answer = line_of("R", f"{start} 01 03 00 ff00 0001", with_device=False)
        self.assertEqual(answer, f"{words}active, no activation: ff00 0001")

    def test_rtp_heads(self) -> None:
        head = "0001 00000002 00000003"
        fields = "type 96, sequence 1, timestamp 2, SSRC 3"
        expected = {
            f"80e0 {head} 0102 0304": f"{fields}, marker, 4 payload bytes: 0102 0304",
            f"8260 {head} 00000001 00000002 0102": f"{fields}, 2 CSRCs, 2 payload bytes: 0102",
            f"9060 {head} abcd 0001 00000009 0102": f"{fields}, "
            "extension of 1 word, 2 payload bytes: 0102",
            f"a060 {head} 0102 0002": f"{fields}, 2 padding bytes, 2 payload bytes: 0102",
            f"8060 {head}": f"{fields}, 0 payload bytes",
            f"4060 {head}": "no RTP packet (RTP version 1), 12 bytes",
            f"a060 {head} 05": "no RTP packet (padding of 5 bytes, 1 there), 13 bytes",
            f"8160 {head} 00": "no RTP packet (field of 4 at 83, 1 there), 13 bytes",
            "": "no RTP packet (field of 1 at 71, 0 there), 0 bytes",
        }
        for packet, words in expected.items():
            with self.subTest(packet=packet):
                self.assertEqual(line_of("P", f"00 {packet}"), f"packet   input a, {words}")


class Faults(unittest.TestCase):
    def test_cuts_of_records(self) -> None:
        for length, fault in [
            (0, "cut at 0: magic of 8 bytes, 0 there"),
            (7, "cut at 0: magic of 8 bytes, 7 there"),
            (8, "cut at 8: head of 5 bytes, 0 there"),
            (64, "cut at 8: record of 52 bytes, 51 there"),
            (126, "cut at 118: record of 4 bytes, 3 there"),
            (131, "cut at 127: head of 5 bytes, 4 there"),
        ]:
            with self.subTest(length=length):
                self.assertEqual(lines_of(CAPTURE[:length])[1], [fault])

    def test_each_cut_is_told_once_and_last(self) -> None:
        data = CAPTURE + RESULT
        for length in range(len(data)):
            with self.subTest(length=length):
                lines, faults = lines_of(data[:length])
                self.assertEqual(len(faults), 0 if length == len(CAPTURE) else 1)
                self.assertTrue(
                    all(line == lines[-1] and line.startswith("cut at ") for line in faults)
                )

    def test_unknown(self) -> None:
        for data, fault in [
            ("00" * 8, "unknown at 0: no capture or result begins here"),
            (CAPTURE.hex() + "00", "unknown at 132: no capture or result begins here"),
            (CAPTURE_MAGIC + "5a 00000001 00" + END, "unknown at 8: capture record with tag 5a"),
            (CAPTURE_MAGIC + "43 00000000" + END, "unknown at 8: capture record with tag 43"),
            (RESULT_MAGIC + "44 00000000" + END, "unknown at 8: result record with tag 44"),
            (CAPTURE_MAGIC + record("A", "00 06") + END, "unknown at 8: op 06 (record 41)"),
            (
                CAPTURE_MAGIC + record("A", "00 00 01 00 01 00 ff01") + END,
                "unknown at 8: cell ff 01 (record 41)",
            ),
            (
                RESULT_MAGIC + record("R", "00" * 17 + "02") + END,
                "unknown at 8: form 02 (record 52)",
            ),
            (
                RESULT_MAGIC + record("R", "00" * 17 + "01 05") + END,
                "unknown at 8: reply code 05 (record 52)",
            ),
            (
                RESULT_MAGIC + record("R", "00" * 17 + "01 14 00 06 00") + END,
                "unknown at 8: check 06 (record 52)",
            ),
            (
                RESULT_MAGIC + record("C", "00" * 8 + "01 0260") + END,
                "unknown at 8: RTP version 0 (record 43)",
            ),
        ]:
            with self.subTest(data=data):
                self.assertEqual(faults_of(data), [fault])

    def test_wrong_lengths(self) -> None:
        device = record("D", DEVICE)
        for data, fault in [
            (
                CAPTURE_MAGIC + record("T", "000001") + END,
                "wrong length at 8: field of 4 at 13, 3 there (record 54)",
            ),
            (
                CAPTURE_MAGIC + record("T", "0000000100") + END,
                "wrong length at 8: 1 byte too many (record 54)",
            ),
            (
                CAPTURE_MAGIC + record("P", "") + END,
                "wrong length at 8: field of 1 at 13, 0 there (record 50)",
            ),
            (
                CAPTURE_MAGIC + record("D", DEVICE + "0000") + END,
                "wrong length at 8: 2 bytes too many (record 44)",
            ),
            (CAPTURE_MAGIC + "45 00000001 00", "wrong length at 8: 1 byte too many (record 45)"),
            (
                CAPTURE_MAGIC + device + END + RESULT_MAGIC + record("C", "00" * 9 + "8060") + END,
                "wrong length at 78: packet of 20 bytes, 2 there (record 43)",
            ),
        ]:
            with self.subTest(data=data):
                self.assertEqual(faults_of(data), [fault])

    def test_a_capture_takes_no_ids_from_the_text_before(self) -> None:
        asked = record("A", "00 00 01 00 01 00 0001")
        for device in (record("J", "7b7d"), record("D", DEVICE[:-2])):
            with self.subTest(device=device):
                data = CAPTURE + bytes.fromhex(CAPTURE_MAGIC + device + asked + END)
                self.assertTrue(lines_of(data)[0][-2].endswith("at once: #0 0 <- #0 1"))

    def test_goes_on_behind_a_whole_record(self) -> None:
        lines, faults = lines_of(CAPTURE.replace(bytes.fromhex("54 00000004"), b"Z\0\0\0\4"))
        self.assertEqual(len(faults), 2)
        self.assertEqual(lines[-1], "     127  end")

    def test_any_bytes_give_lines(self) -> None:
        data, chance = CAPTURE + RESULT, random.Random(1)
        for at in range(len(data)):
            for value in (0x00, 0x01, 0x7F, 0xFE, 0xFF, chance.randrange(256)):
                changed = data[:at] + bytes([value]) + data[at + 1 :]
                self.assertTrue(lines_of(changed)[0])
        for _ in range(2000):
            noise = chance.randbytes(chance.randrange(80))
            tag = chance.choice("DJPQATECHR")
            magic = CAPTURE_MAGIC if tag in "DJPQATE" else RESULT_MAGIC
            self.assertTrue(lines_of(bytes.fromhex(magic + record(tag, noise.hex()) + END))[0])

    def test_bytes_without_a_magic_give_one_fault(self) -> None:
        chance = random.Random(2)
        for _ in range(2000):
            lines, faults = lines_of(chance.randbytes(chance.randrange(80)))
            self.assertEqual((len(lines), lines), (1, faults))
            self.assertRegex(lines[0], r"^(cut|unknown) at 0: ")


class Escapes(unittest.TestCase):
    def test_each_text_is_got_again(self) -> None:
        chance = random.Random(3)
        texts = [b"\\x41 \\ \n", "\u0080 \u2028 \u00fc".encode(), b"\xff\x80", b""]
        texts += [chance.randbytes(chance.randrange(40)) for _ in range(2000)]
        for text in texts:
            self.assertTrue(quoted(text).isprintable())
            self.assertEqual(unquoted(quoted(text)), text)


class Timeline(unittest.TestCase):
    def lines(self, *words: str) -> list[str]:
        status, out, err = run("--timeline", *words, str(CRATE / "stdin"), str(CRATE / "stdout"))
        self.assertEqual((status, err), (0, ""))
        return out.splitlines()

    def test_the_stored_run(self) -> None:
        expected = [
            "tick      0",
            "input a     #",
            "output x  ..#",
            "output y  ..#",
            "calls       1",
            "",
            "call 1 from tick 2: activation at once: x 0 <- a 0, y 0 <- a 1",
        ]
        self.assertEqual(self.lines()[:-1], expected)

    def test_an_output_and_ticks(self) -> None:
        lines = self.lines("--output", "y", "--ticks", "1..1")
        self.assertEqual(lines[:4], ["tick      1", "input a", "output y  .", "calls"])

    def test_many_ticks_and_calls(self) -> None:
        device = Device(0, 1, [], [Port("x", 1, 16)], 48000)
        claims = [
            Record(0, "claim", {"output": "x", "tick": tick, "payload": "0000"}) for tick in range(
                61
            )
        ]
        asked = {"ask": "activation", "mode": "at once", "action": []}
        calls = [
            Record(0, "call", {"id": number, "tick": tick, **asked})
            for number, tick in ((3, 0), (10, 1), (4, 2), (5, 2))
        ]
        lines = list(timeline(claims + calls, device).lines())
        self.assertEqual(lines[0], "tick      0         10        20        30        40        50")
        self.assertEqual(lines[1:3], ["output x  " + "." * 60, "calls     3*+"])
        self.assertEqual(lines[4:6], ["tick      60", "output x  ."])

    def test_ruler(self) -> None:
        self.assertEqual(ruler(range(1234, 1256)), "1234  1240      1250")


class Command(unittest.TestCase):
    def test_standard_input(self) -> None:
        self.assertEqual(run(data=CAPTURE), (0, CAPTURE_LINES, ""))

    def test_file_with_device(self) -> None:
        words = ["--device", str(CRATE / "stdin"), str(CRATE / "stdout")]
        self.assertEqual(run(*words), (0, RESULT_LINES, ""))

    def test_status_of_faults(self) -> None:
        status, out, err = run("--samples", "2", data=CAPTURE[:-1])
        self.assertEqual((status, err), (1, ""))
        self.assertTrue(out.endswith("cut at 127: head of 5 bytes, 4 there\n"))

    def test_device_file_without_device(self) -> None:
        status, out, err = run("--device", str(CRATE / "stdout"), data=RESULT)
        self.assertEqual((status, out), (1, ""))
        self.assertTrue(err.startswith("show: no device in "))

    def test_wrong_words(self) -> None:
        for words in (["--samples", "x"], ["no such file"], ["--unknown"]):
            with self.subTest(words=words):
                status, out, err = run(*words)
                self.assertEqual((status, out), (2, ""))
                self.assertNotIn("Traceback", err)

    def test_file_that_cannot_be_read(self) -> None:
        with tempfile.TemporaryDirectory() as folder:
            missing = os.path.join(folder, "none")
            for words, path, cause in [
                ([folder], folder, errno.EISDIR),
                ([missing], missing, errno.ENOENT),
                (["--device", missing], missing, errno.ENOENT),
            ]:
                with self.subTest(words=words):
                    line = f"show: {path}: {os.strerror(cause)}\n"
                    self.assertEqual(run(*words, data=RESULT), (2, "", line))

    @unittest.skipUnless(os.path.exists("/dev/full"), "needs a device that is always full")
    def test_output_that_cannot_be_written(self) -> None:
        with open("/dev/full", "wb") as full:
            done = subprocess.run(
                [sys.executable, str(PROGRAM)],
                input=CAPTURE,
                stdout=full,
                stderr=subprocess.PIPE,
                check=False,
            )
        line = f"show: {os.strerror(errno.ENOSPC)}\n"
        self.assertEqual((done.returncode, done.stderr.decode()), (2, line))

    def test_capture_and_result(self) -> None:
        files = [str(CRATE / "stdin"), str(CRATE / "stdout")]
        self.assertEqual(run(*files), (0, CAPTURE_LINES + RESULT_LINES, ""))
        self.assertEqual(run(*reversed(files)), (0, RESULT_LINES + CAPTURE_LINES, ""))
        self.assertEqual(run(*files, "third")[0], 2)

    def picked(self, *words: str) -> list[str]:
        status, out, err = run(*words, str(CRATE / "stdin"), str(CRATE / "stdout"))
        self.assertEqual((status, err), (0, ""))
        return out.splitlines()

    def test_only(self) -> None:
        lines = self.picked("--only", "call,reply,work")
        self.assertEqual([line.split()[1] for line in lines], ["work", "work", "call", "reply"])
        status, out, err = run("--only", "claims", data=RESULT)
        self.assertEqual((status, out), (2, ""))
        self.assertIn("'claims' is none of capture, result, device,", err)

    def test_output_and_ticks(self) -> None:
        self.assertEqual(
            [line.split(",")[0] for line in self.picked("--only", "claim", "--output", "y")],
            ["      42  claim    1", "     196  claim    3", "     268  claim    5"],
        )
        for ticks, places in (
            ("1..", [65, 80, 114, 196, 234, 268]),
            ("..0", [8, 42]),
            ("2", [65, 114, 234, 268]),
            ("3..1", []),
        ):
            with self.subTest(ticks=ticks):
                lines = self.picked("--ticks", ticks, "--only", "packet,claim,call")
                self.assertEqual([int(line.split()[0]) for line in lines], places)
        status, out, err = run("--ticks", "1..2", data=RESULT)
        self.assertEqual(
            (status, err), (2, "show: --output and --ticks want a device: show CAPTURE RESULT\n")
        )

    def test_words_that_want_a_device(self) -> None:
        line = "show: --timeline wants a device: show --timeline CAPTURE RESULT\n"
        self.assertEqual(run("--timeline", data=RESULT), (2, "", line))

    def test_json(self) -> None:
        records = [json.loads(line) for line in self.picked("--json")]
        self.assertEqual([one["at"] for one in records if one["record"] == "claim"][-1], 268)
        self.assertEqual(
            records[-2],
            {
                **{"at": 268, "record": "claim", "claim": 5, "output": "y", "tick": 2},
                **{"found": ["a"], "type": 97, "sequence": 2, "timestamp": 4, "ssrc": 2},
                **{"marker": False, "csrcs": [], "extension_words": None, "padding_bytes": 0},
                **{"payload": "222200000000444400000000", "channels": 2, "sample_bytes": 3},
            },
        )

    def test_color(self) -> None:
        lines = self.picked("--color", "always")
        self.assertEqual(lines[0], "       0  \033[1mcapture\033[0m")
        plain = [re.sub("\033\\[[0-9]*m", "", line) for line in lines]
        self.assertEqual("\n".join(plain) + "\n", CAPTURE_LINES + RESULT_LINES)
        self.assertTrue(run("--color=always", data=b"x")[1].startswith("\033[31munknown at 0: "))

    def test_version(self) -> None:
        self.assertRegex(run("--version")[1], r"^show \d+\.\d+, of chanmap")

    def test_help(self) -> None:
        status, out, _ = run("--help")
        self.assertEqual(status, 0)
        self.assertIn("--device FILE", out)
        self.assertIn("examples:", out)


if __name__ == "__main__":
    unittest.main()
