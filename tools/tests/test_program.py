"""Tests of the built program from outside: its words, streams, statuses and lines, and its results
beside those of tools/tests/model.py.

Run: python3 tools/tests/test_program.py     (the program must be built: `rt run` in crates/chanmap)
"""

from __future__ import annotations

import os
import pathlib
import re
import resource
import subprocess
import sys
import tempfile
import unittest

sys.dont_write_bytecode = True
sys.path.insert(0, str(pathlib.Path(__file__).resolve().parent))
import model  # noqa: E402 (these stand beside this file)
from captures import Captures, HttpCaptures  # noqa: E402

CRATE = pathlib.Path(__file__).resolve().parents[2] / "crates" / "chanmap"
PROGRAM = CRATE / "out" / "chanmap"
CAPTURE = (CRATE / "stdin").read_bytes()
RESULT = (CRATE / "stdout").read_bytes()
MOST = 1 << 26
USAGE = b"usage: chanmap serial | sdp | from-sdp\n"


def run(words: list[str | bytes], data: bytes = b"", **options) -> tuple[int, bytes, bytes]:
    """The status, and what went to standard output and standard error."""
    done = subprocess.run(
        [str(PROGRAM), *words], input=data, capture_output=True, timeout=120, check=False, **options
    )
    return done.returncode, done.stdout, done.stderr


def setUpModule() -> None:
    if not PROGRAM.exists():
        raise unittest.SkipTest("the program isn't built")


class Words(unittest.TestCase):
    def test_the_command(self) -> None:
        self.assertEqual(run(["serial"], CAPTURE), (0, RESULT, b""))

    def test_other_words(self) -> None:
        for words in (
            [], [""], ["play"], ["serial", "serial"], ["serial", ""], ["Serial"], ["--help"]
        ):
            with self.subTest(words=words):
                self.assertEqual(run(words, CAPTURE), (2, b"", USAGE))

    def test_a_word_that_is_no_text(self) -> None:
        for words in ([b"\xff"], [b"serial", b"\xc3"], [b"\x80", b"serial"]):
            with self.subTest(words=words):
                self.assertEqual(run(words, CAPTURE), (2, b"", USAGE))


class Input(unittest.TestCase):
    def test_no_capture(self) -> None:
        for data, line in (
            (b"", b"refused at 0: magic\n"),
            (b"CHMCAP1\n", b"refused at 8: cut\n"),
            (CAPTURE[:-1], b"refused at 127: cut\n"),
            (CAPTURE + b"E", b"refused at 132: trailing\n"),
            (CAPTURE[:126] + b"\2" + CAPTURE[127:], b"refused at 127: work\n"),
            (CAPTURE[:8] + b"Q" + CAPTURE[9:], b"refused at 8: order\n"),
            (CAPTURE[:8] + b"J" + CAPTURE[9:], b"refused at 8: device\n"),
            (RESULT, b"refused at 0: magic\n"),
            (bytes(MOST), b"refused at 0: magic\n"),
        ):
            with self.subTest(length=len(data)):
                self.assertEqual(run(["serial"], data), (5, b"", line))

    def test_too_long(self) -> None:
        self.assertEqual(run(["serial"], bytes(MOST + 1)), (7, b"", b"too long\n"))
        self.assertEqual(run(["serial"], CAPTURE + bytes(MOST)), (7, b"", b"too long\n"))

    def test_input_that_cannot_be_read(self) -> None:
        directory = os.open(CRATE, os.O_RDONLY)
        try:
            done = subprocess.run(
                [str(PROGRAM), "serial"],
                stdin=directory,
                capture_output=True,
                timeout=120,
                check=False,
            )
        finally:
            os.close(directory)
        self.assertEqual((done.returncode, done.stdout, done.stderr), (3, b"", b"read fault\n"))

    def test_pieces(self) -> None:
        """The input comes byte by byte."""
        with subprocess.Popen(
            [str(PROGRAM), "serial"],
            stdin=subprocess.PIPE,
            stdout=subprocess.PIPE,
            stderr=subprocess.PIPE,
            bufsize=0,
        ) as program:
            for byte in CAPTURE:
                program.stdin.write(bytes([byte]))
            out, err = program.communicate(timeout=120)
        self.assertEqual((program.returncode, out, err), (0, RESULT, b""))

    def test_the_longest_capture(self) -> None:
        """Work records of no claims fill 64 MiB."""
        end = CAPTURE[-5:]
        device = CAPTURE[:65]
        count, rest = divmod(MOST - len(device) - len(end), 9)
        data = device + bytes.fromhex("540000000400000000") * count + end
        self.assertEqual(len(data) + rest, MOST)
        self.assertEqual(run(["serial"], data), (0, RESULT[:8] + end, b""))


class Output(unittest.TestCase):
    def test_output_that_cannot_be_written(self) -> None:
        with open("/dev/full", "wb") as full:
            done = subprocess.run(
                [str(PROGRAM), "serial"],
                input=CAPTURE,
                stdout=full,
                stderr=subprocess.PIPE,
                timeout=120,
                check=False,
            )
        self.assertEqual((done.returncode, done.stderr), (4, b"write fault\n"))

    def test_output_that_nobody_reads(self) -> None:
        reader, writer = os.pipe()
        os.close(reader)
        try:
            done = subprocess.run(
                [str(PROGRAM), "serial"],
                input=CAPTURE,
                stdout=writer,
                stderr=subprocess.PIPE,
                timeout=120,
                check=False,
            )
        finally:
            os.close(writer)
        self.assertEqual((done.returncode, done.stderr), (4, b"write fault\n"))

    def test_a_line_that_cannot_be_written(self) -> None:
        with open("/dev/full", "wb") as full:
            done = subprocess.run(
                [str(PROGRAM)],
                input=b"",
                stdout=subprocess.PIPE,
                stderr=full,
                timeout=120,
                check=False,
            )
        self.assertEqual((done.returncode, done.stdout), (2, b""))

    def test_a_closed_stream(self) -> None:
        with tempfile.TemporaryFile() as empty:
            done = subprocess.run(
                ["/bin/sh", "-c", 'exec "$0" serial >&-', str(PROGRAM)],
                input=CAPTURE, stdout=empty, stderr=subprocess.PIPE, timeout=120, check=False,
            )
        self.assertEqual((done.returncode, done.stderr), (4, b"write fault\n"))


class Memory(unittest.TestCase):
    def test_want_of_memory(self) -> None:
        """With ample memory for the program alone, a long input finds none."""

        def limit() -> None:
            resource.setrlimit(resource.RLIMIT_AS, (MOST // 2, MOST // 2))

        self.assertEqual(run(["serial"], bytes(MOST), preexec_fn=limit), (12, b"", b"no memory\n"))
        self.assertEqual(run(["serial"], CAPTURE, preexec_fn=limit), (0, RESULT, b""))

    def test_want_of_memory_for_the_words(self) -> None:
        """Between too little memory to start with words of 1.8 MB and enough to copy them, the copy
        finds none.
        """
        words = ["x" * 100_000] * 18
        seen = set()
        for half_megabytes in range(6, 24):
            limit = half_megabytes << 19
            status, out, err = run(
                words, preexec_fn=lambda: resource.setrlimit(resource.RLIMIT_AS, (limit, limit))
            )
            if status != 127:  # it could be loaded
                self.assertIn((status, out, err), [(12, b"", b"no memory\n"), (2, b"", USAGE)])
                seen.add(status)
        self.assertEqual(seen, {2, 12})


API = b"/x-nmos/channelmapping/v1.0"
ACTION = (
    b'{"activation":{"mode":"activate_immediate"},'
    b'"action":{"x":{"0":{"input":"a","channel_index":1}}}}'
)


def post(body: bytes, length: int | None = None) -> bytes:
    told = len(body) if length is None else length
    return b"POST %s/map/activations HTTP/1.1\r\nContent-Length: %d\r\n\r\n%s" % (API, told, body)


POST = post(ACTION)


def get(target: bytes, *fields: bytes) -> bytes:
    return b"".join(
        [b"GET ", target, b" HTTP/1.1\r\n", *(one + b"\r\n" for one in fields), b"\r\n"]
    )


def limits_of_streams() -> dict[str, tuple[bytes, list[int]]]:
    """Streams at each limit and one past it, with the statuses that docs/FORMATS-HTTP.md tells."""
    deep, short = b"[" * 127 + b"]" * 127, get(b"/", b"x: ")
    item = API + b"/map/activations/"
    return {
        "a head of 8192 bytes": (get(b"/", b"x: " + b"a" * (8192 - len(short))), [200]),
        "a head of 8193 bytes": (get(b"/", b"x: " + b"a" * (8193 - len(short))), [431]),
        "8192 bytes without an end": (b"GET / HTTP/1.1\r\nx: " + b"a" * 8173, [431]),
        "8191 bytes without an end": (b"GET / HTTP/1.1\r\nx: " + b"a" * 8172, []),
        "64 fields": (get(b"/", *[b"x: 1"] * 64), [200]),
        "65 fields": (get(b"/", *[b"x: 1"] * 65), [400]),
        "a body of 262144 bytes": (post(ACTION.ljust(262144)), [200]),
        "a length of 262145": (post(b"", 262145), [413]),
        "a long length": (post(b"", int("9" * 30)), [413]),
        "a length with zeros": (get(b"/", b"Content-Length: 000") + get(b"/"), [200, 200]),
        "two lengths": (get(b"/", b"Content-Length: 0", b"content-length: 0"), [400]),
        "a length with a sign": (get(b"/", b"Content-Length: +1"), [400]),
        "a length with a blank": (get(b"/", b"Content-Length: 1 1"), [400]),
        "no digits": (get(b"/", b"Content-Length:"), [400]),
        "a POST without length": (b"POST /zz HTTP/1.1\r\n\r\n", [411]),
        "chunks": (get(b"/", b"transfer-encoding: chunked", b"Content-Length: x"), [411]),
        "no request": (b"no request\r\n\r\n" + get(b"/"), [400]),
        "JSON of 127 levels": (post(b'{"activation":%s}' % deep[1:-1]), [400]),
        "JSON of 128 levels": (post(deep.join([b"[", b"]"])), [400]),
        "no UTF-8": (post(b'"\xff"'), [400]),
        "a lone surrogate": (post(b'"\\ud800"'), [400]),
        "an empty body": (post(b""), [400]),
        "an id of 0": (get(item + b"0"), [404]),
        "an id with a zero in front": (get(item + b"01"), [404]),
        "the greatest id": (get(item + b"18446744073709551615"), [404]),
        "an id past it": (get(item + b"18446744073709551616"), [404]),
        "slashes": (get(b"/") + get(b"//") + get(b"///") + get(API + b"/"), [200, 200, 404, 200]),
        "a question": (get(b"?x") + get(b"/?x") + get(b"/x?"), [404, 200, 404]),
        "no method of it": (b"PUT %s/inputs/zz HTTP/1.1\r\n\r\n" % API, [405]),
        "a method in small letters": (b"get / HTTP/1.1\r\n\r\n", [405]),
        "any path": (b"OPTIONS * HTTP/1.1\r\n\r\n", [200]),
        "behind close": (get(b"/", b"CONNECTION: \t Close ") + get(b"/"), [200]),
        "behind keep-alive": (get(b"/", b"Connection: close, x") + get(b"/"), [200, 200]),
    }


class Model(unittest.TestCase):
    """The program and the model agree, on captures and on damaged ones."""

    def check(self, data: bytes) -> bool:
        """Whether the capture has a result, which is the model's."""
        try:
            expected = (0, model.result(data), b"")
        except model.Refused as fault:
            expected = (5, b"", fault.line())
        self.assertEqual(run(["serial"], data), expected, data.hex())
        return expected[0] == 0

    def is_certain(self, data: bytes) -> bool:
        """Compares where the pages leave nothing open."""
        try:
            self.check(data)
        except model.Doubtful:
            return False
        return True

    def test_the_stored_run(self) -> None:
        self.assertEqual(model.result(CAPTURE), RESULT)

    def test_no_full_table(self) -> None:
        """A book takes any number of activations, also more than a table has places for."""
        activation = CAPTURE[100:118]
        for count in (255, 256, 1100):
            with self.subTest(count=count):
                data = CAPTURE[:65] + activation * count + CAPTURE[127:]
                self.assertTrue(self.check(data))
                self.assertEqual(model.result(data).count(activation[6:]), count)

    def test_the_most_ticks(self) -> None:
        """The stored capture has two outputs, so two claims make a tick."""
        for claims, is_within in ((8192, True), (8194, False)):
            with self.subTest(claims=claims):
                work = model.record(b"T", claims.to_bytes(4, "big"))
                self.assertEqual(self.check(CAPTURE[:65] + work + CAPTURE[127:]), is_within)

    def test_the_stored_capture_cut_at_each_byte(self) -> None:
        for length in range(len(CAPTURE)):
            with self.subTest(length=length):
                self.assertFalse(self.check(CAPTURE[:length]))

    def test_each_tag_of_the_stored_capture_changed(self) -> None:
        for place in (8, 65, 91, 100, 118, 127):
            for tag in b"DJPQATECHR\0\xff":
                with self.subTest(place=place, tag=tag):
                    certain = self.is_certain(CAPTURE[:place] + bytes([tag]) + CAPTURE[place + 1 :])
                    # taken for a piece of a stream, the bytes of another record may be doubtful
                    self.assertTrue(certain or tag == ord("Q"))

    def test_clients_of_the_control_api(self) -> None:
        """Streams are cut over pieces, with claims and other clients between them."""
        certain = 0
        for seed in range(1500):
            with self.subTest(seed=seed):
                captures = HttpCaptures(seed)
                certain += self.is_certain(captures.whole(captures.records()))
        self.assertGreater(certain, 1200)

    def statuses(self, pieces: list[bytes]) -> list[int]:
        """The statuses of the responses to a stream in pieces, each after a tick of claims."""
        data = CAPTURE[:65]
        for piece in pieces:
            data += model.record(b"T", (2).to_bytes(4, "big"))
            data += model.record(b"Q", b"\0" + piece)
        data += model.record(b"E", b"")
        self.assertTrue(self.check(data))
        return [int(found) for found in re.findall(rb"HTTP/1\.1 (\d+)", model.result(data))]

    def test_limits_of_streams(self) -> None:
        for name, (data, statuses) in limits_of_streams().items():
            with self.subTest(name=name):
                self.assertEqual(self.statuses([data]), statuses)

    def test_a_request_cut_before_each_byte(self) -> None:
        data = b"\r\n" + POST + b"GET / HTTP/1.0\r\nA:b\r\n\r\n"
        for place in range(len(data) + 1):
            with self.subTest(place=place):
                self.assertEqual(self.statuses([data[:place], data[place:]]), [200, 200])

    def test_damaged_captures_of_the_control_api(self) -> None:
        certain = 0
        for seed in range(1000):
            with self.subTest(seed=seed):
                certain += self.is_certain(HttpCaptures(seed).damaged())
        self.assertGreater(certain, 700)

    def test_captures_at_random(self) -> None:
        for seed in range(400):
            with self.subTest(seed=seed):
                captures = Captures(seed)
                self.assertTrue(self.check(captures.whole(captures.records())))

    def test_damaged_captures(self) -> None:
        read = 0
        for seed in range(2000):
            with self.subTest(seed=seed):
                read += self.check(Captures(seed).damaged())
        self.assertTrue(0 < read < 2000)


if __name__ == "__main__":
    if not PROGRAM.exists():
        sys.exit("test_program: the program isn't built: run `rt run` in crates/chanmap")
    unittest.main()
