"""Tests of tools/make_capture, wav, diff, demo, and of tools/dev."""

from __future__ import annotations

import importlib.machinery
import importlib.util
import os
import pathlib
import random
import subprocess
import sys
import tempfile
import unittest
import wave
from types import ModuleType

sys.dont_write_bytecode = True
TOOLS = pathlib.Path(__file__).resolve().parents[1]
sys.path[:0] = [str(TOOLS / folder) for folder in ("", "tests", "dev")]
import model  # noqa: E402
import wrapping  # noqa: E402
from records.text import NotTold, TextFault, capture_of, text_of  # noqa: E402

TOP = TOOLS.parent
CAPTURE = (TOP / "crates" / "chanmap" / "stdin").read_bytes()
RESULT = (TOP / "crates" / "chanmap" / "stdout").read_bytes()
DEVICE = """capture
device 48000 Hz, 2 frames a tick
input a: 2 channels, L16
output x: 2 channels, L16
output y: 1 channel, L24, type 97
"""


def program(name: str) -> ModuleType:
    """A tool as a module."""
    loader = importlib.machinery.SourceFileLoader(pathlib.Path(name).name, str(TOOLS / name))
    spec = importlib.util.spec_from_loader(loader.name, loader)
    module = sys.modules[loader.name] = importlib.util.module_from_spec(spec)
    loader.exec_module(module)
    return module


definitions = program("dev/definitions")
pages = program("dev/pages")


def run(tool: str, *words: str, data: bytes = b"") -> tuple[int, bytes, str]:
    command = [sys.executable, str(TOOLS / tool), *words]
    done = subprocess.run(command, input=data, capture_output=True, check=False)
    return done.returncode, done.stdout, done.stderr.decode()


def records_of(data: bytes) -> str:
    """The bytes after the device's record and before the last one."""
    start = 8 + 5 + int.from_bytes(data[9:13], "big")
    return data[start:-5].hex()


class Texts(unittest.TestCase):
    def test_the_stored_capture(self) -> None:
        text = (TOP / "examples" / "mid_tick_activation.txt").read_text("utf-8")
        self.assertEqual(capture_of(text), CAPTURE)
        self.assertEqual(capture_of("\n".join(text_of(CAPTURE))), CAPTURE)

    def test_the_words_of_show(self) -> None:
        status, shown, err = run("show", "--samples", "1000", data=CAPTURE)
        self.assertEqual((status, err), (0, ""))
        self.assertEqual(run("make_capture", data=shown), (0, CAPTURE, ""))

    def test_each_example_is_told_again(self) -> None:
        for path in sorted((TOP / "examples").glob("*.txt")):
            with self.subTest(path=path.name):
                data = capture_of(path.read_text("utf-8"))
                self.assertEqual(capture_of("\n".join(text_of(data))), data)
                self.assertTrue(model.result(data).startswith(b"CHMRES"))  # not refused

    def test_the_text_of_the_page(self) -> None:
        page = (TOOLS / "README.md").read_text("utf-8")
        text = "capture\n" + page.split("```\ncapture\n")[1].split("```")[0]
        data = capture_of(text)
        self.assertEqual(capture_of("\n".join(text_of(data))), data)
        self.assertEqual(data.count(b"\x80\x60"), 11)

    def test_what_is_shown_of_examples_is_kept(self) -> None:
        """Each capture is its text's, and the result the model's."""
        for path in sorted((TOP / "examples").glob("*.shown")):
            data = capture_of(path.with_suffix(".txt").read_text("utf-8"))
            with self.subTest(path=path.name), tempfile.TemporaryDirectory() as folder:
                files = [pathlib.Path(folder) / name for name in ("capture", "result")]
                files[0].write_bytes(data)
                files[1].write_bytes(model.result(data))
                status, shown, err = run("show", *map(str, files))
                self.assertEqual((status, err), (0, ""))
                self.assertEqual(shown, path.read_bytes())

    def test_a_device_as_json(self) -> None:
        device = '{"rate":1,"frames":2,"inputs":[{"id":"a","channels":[{"label":"# 1"}],"width":16,'
        device += '"payload_type":99}],"outputs":[]}'
        one_line = f"capture\ndevice JSON {device}\npacket input a, tick 1: silence\n"
        data = capture_of(one_line)
        self.assertEqual(data[8:13], b"J" + len(device).to_bytes(4, "big"))
        self.assertEqual(data[13 : 13 + len(device)].decode(), device)
        self.assertIn(bytes.fromhex("50 00000011 00 8063 0001 00000002 00000001 00000000"), data)
        parts = device.replace(",", ",|").split("|")
        lines = "capture\ndevice JSON\n" + "".join(f"  {part}\n" for part in parts)
        several = capture_of(lines + "packet input a, tick 1: silence\n")
        self.assertEqual(several[-27:], data[-27:])
        self.assertIn("\n".join(parts).encode(), several)

    def test_comments(self) -> None:
        text = "# before\n#\n" + DEVICE + "work 1 claim # one\n  # behind\npacket #0, ticks 1\n"
        with self.assertRaisesRegex(TextFault, "line 10: '#0' is no field of a packet"):
            capture_of(text)
        self.assertTrue(
            capture_of(DEVICE + "stream client 0, a # b").endswith(b"a # b" + CAPTURE[-5:])
        )

    def test_short_forms(self) -> None:
        whole = """capture
device   48000 Hz, 2 frames a tick, base 0, hold 0, 1 input, 2 outputs
    input a: 2 channels, L16, type 96, block size 1, reordering
    output x: 2 channels, L16, type 96, SSRC 1, routable all, base row 0 <- unrouted, 1 <- unrouted
    output y: 1 channel, L24, type 97, SSRC 2, routable all, base row 0 <- unrouted
packet   input a, type 96, sequence 3, timestamp 6, SSRC 1: 0000 0000 | 0000 0000
packet   input a, type 96, sequence 4, timestamp 8, SSRC 1: 0000 0000 | 0000 0000
work     4 claims
end
"""
        short = DEVICE + "# two packets\npacket input a, ticks 3..4: silence\n\nwork 2 ticks\n"
        self.assertEqual(capture_of(short), capture_of(whole))

    def test_records(self) -> None:
        for line, body in {
            "packet input a, tick 1, marker: 0102 0304 | 0506 0708": "500000001500"
            "80e00001000000020000000101020304" + "05060708",
            "packet input #3, bytes: 40": "50000000020340",
            "request client 2, activation at once: no output": "4100000003020000",
            "request client 2, activation at once: y as it is": "4100000005020001" + "0100",
            "request client 0, activation after 7:9: x 1 <- unrouted": "410000001400"
            "02000000000000000700000009" + "0100" + "01" + "01ff00",
            "request client 0, activation at 7:9: x 0 <- a 1, x 1 <- a 0, y 0 <- #4 5": "41"
            "0000001c00"
            "01000000000000000700000009" + "02" + "0002" + "000001" + "010000" + "0101" + "000405",
            "request client 1, deletion of id 258": "410000000a01030000000000000102",
            "request client 1, reading of the active map": "41000000020104",
            "request client 1, reading of the pending activations": "41000000020105",
            "stream client 1, GET / HTTP/1.1\\r\\n\\xff\\\\": "5100000013" "01"
            + b"GET / HTTP/1.1\r\n\xff\\".hex(),
            "http client 1, GET map": "5100000040" "01"
            + b"GET /x-nmos/channelmapping/v1.0/map HTTP/1.1\r\nHost: chanmap\r\n\r\n".hex(),
            "http client 1, GET /x, close": "5100000036" "01"
            + b"GET /x HTTP/1.1\r\nHost: chanmap\r\nConnection: close\r\n\r\n".hex(),
            "http client 1, POST /x: {} # b": "510000003d" "01"
            + b"POST /x HTTP/1.1\r\nHost: chanmap\r\nContent-Length: 6\r\n\r\n{} # b".hex(),
            "work 258 claims": "540000000400000102",
        }.items():
            with self.subTest(line=line):
                self.assertEqual(records_of(capture_of(DEVICE + line)), body)

    def test_formats(self) -> None:
        behind = DEVICE.removeprefix("capture")
        plain = capture_of(DEVICE)
        self.assertEqual(capture_of("capture format 1" + behind), plain)
        two = b"CHMCAP2\n" + plain[8:]
        self.assertEqual(capture_of("capture  format 2" + behind), two)
        for word, number in (("tick", 0), ("frame", 1)):
            data = capture_of(f"capture format 2{behind}grain {word}\nwork 2 claims")
            grain = bytes([0x47, 0, 0, 0, 1, number])
            self.assertEqual(data, two[:-5] + grain + bytes.fromhex("540000000400000002") + two[-5:])
            self.assertEqual(capture_of("\n".join(text_of(data))), data)
        for text, words in {
            "capture format 3": "line 1: 'format 3' is no format of a capture",
            f"{DEVICE}grain frame": "line 6: a grain stands in a capture of format 2",
            f"capture format 2{behind}grain 1": "line 6: '1' is no grain",
        }.items():
            with self.subTest(words=words), self.assertRaises(TextFault) as caught:
                capture_of(text)
            self.assertEqual(str(caught.exception), words)

    def test_lines_that_are_none(self) -> None:
        for line, words in {
            "claim 3": "line 6: 'claim' is no record of a capture",
            "packet input b: silence": "line 6: there is no input b",
            "packet tick 1: silence": "line 6: a packet names its input",
            "packet input a: 0g": "line 6: '0g' is not hexadecimal",
            "packet input a, type 200: silence": "line 6: type 200 doesn't fit 7 bits",
            "work 4294967296 claims": "line 6: claims 4294967296 doesn't fit 32 bits",
            "work 3": "line 6: '3' is no number of claims or ticks",
            "request client 0, activation at once: z 0 <- a 0": "line 6: there is no output z",
            "request client 0, activate": "line 6: 'activate' is no request",
            "device 48000 Hz": "line 6: a second device",
            "work 1 claim\noutput z: L16": "line 7: an output stands right behind its device",
            "end\nwork 1 claim": "line 7: a line behind the end",
            "input b: 2 channels, L16, SSRC": "line 6: 'SSRC' is no field of an input or output",
        }.items():
            with self.subTest(line=line), self.assertRaises(TextFault) as caught:
                capture_of(DEVICE + line)
            self.assertEqual(str(caught.exception), words)
        self.assertEqual(run("make_capture", data=b"work 1 claim")[0], 1)
        self.assertEqual(run("make_capture", "no such file")[0], 2)

    def test_captures_that_are_not_told(self) -> None:
        for data in (RESULT, CAPTURE[:-1], CAPTURE.replace(b"\x01a\x02", b"\x01:\x02")):
            with self.assertRaises(NotTold):
                text_of(data)

    def test_packets_of_any_bytes_are_told(self) -> None:
        chance, device = random.Random(4), capture_of(DEVICE)[:-5]
        for _ in range(500):
            body = bytes([chance.randrange(3)]) + chance.choice([b"\x80", b""])
            body += chance.randbytes(chance.randrange(40))
            data = device + b"P" + len(body).to_bytes(4, "big") + body + CAPTURE[-5:]
            self.assertEqual(capture_of("\n".join(text_of(data))), data)


class Wav(unittest.TestCase):
    def test_the_stored_run(self) -> None:
        crate = TOP / "crates" / "chanmap"
        with tempfile.TemporaryDirectory() as folder:
            place = pathlib.Path(folder) / "sound"
            status, _, err = run("wav", str(crate / "stdin"), str(crate / "stdout"), str(place))
            self.assertEqual((status, err), (0, ""))
            for name, size, data in (
                ("x", 2, "0000" * 8 + "1111 0000 3333 0000"),
                ("y", 3, "000000" * 8 + "002222 000000 004444 000000"),
            ):
                with wave.open(str(place / f"{name}.wav"), "rb") as sound:
                    self.assertEqual(sound.getparams()[:4], (2, size, 48000, 6))
                    self.assertEqual(sound.readframes(6), bytes.fromhex(data))

    def test_a_capture_without_a_device(self) -> None:
        crate = TOP / "crates" / "chanmap"
        with tempfile.TemporaryDirectory() as folder:
            words = [str(crate / "stdout"), str(crate / "stdout"), folder]
            self.assertEqual(run("wav", *words)[0], 1)
        self.assertEqual(run("wav", "none", "none", "none")[0], 2)


class Diff(unittest.TestCase):
    def told(self, other: bytes, one: bytes = RESULT, device: bool = True) -> tuple[int, str]:
        with tempfile.TemporaryDirectory() as folder:
            names = [str(pathlib.Path(folder) / name) for name in ("one", "other", "device")]
            for name, data in zip(names, (one, other, CAPTURE)):
                pathlib.Path(name).write_bytes(data)
            words = ["--device", names[2]] if device else []
            status, out, err = run("diff", *names[:2], *words)
        self.assertEqual(err, "")
        return status, out.decode().split("\n")[0]

    def test_the_same(self) -> None:
        self.assertEqual(self.told(RESULT), (0, ""))

    def test_differences(self) -> None:
        start = "first difference in record"
        for at, byte, words in (
            (0, 0x44, f"{start} 0: result and fault"),
            (59, 1, f"{start} 2: sequence: 0 and 1"),
            (155, 0, f"{start} 4: action: x 0 <- a 0, y 0 <- a 1 and x 0 <- a 0, y 0 <- a 0"),
            (195, 9, f"{start} 5: tick: 2 and 9"),
            (247, 0, f"{start} 7: found: a and none"),
            (264, 0x44, f"{start} 7: frame 1, channel 0: 3333 and 4433"),
        ):
            with self.subTest(at=at):
                other = RESULT[:at] + bytes([byte]) + RESULT[at + 1 :]
                self.assertEqual(self.told(other), (1, words))
        self.assertEqual(self.told(RESULT[:8] + RESULT[-5:])[1], f"{start} 1: claim and end")
        self.assertEqual(self.told(RESULT + RESULT)[1], f"{start} 10: only the second has it")

    def test_differences_of_responses(self) -> None:
        data = model.result(capture_of((TOP / "examples" / "http_clients.txt").read_text("utf-8")))
        for old, new, words in (
            (b"1 423 Locked", b"1 424 Locked", "status: 423 and 424"),
            (b"Connection: keep-alive", b"Connection: close", "closes: no and yes"),
            (b'"output locked"', b'"output lacked"', '"output locked"} and {"code":423'),
            (b"Origin: *", b"Origin: +", "text: HTTP/1.1 200 OK"),
        ):
            with self.subTest(new=new):
                front, _, behind = data.partition(old)
                at = front.rindex(b"R\0\0") + 1  # the length of the reply's record
                length = int.from_bytes(front[at : at + 4], "big") + len(new) - len(old)
                other = front[:at] + length.to_bytes(4, "big") + front[at + 4 :] + new + behind
                status, line = self.told(other, data, device=False)
                self.assertEqual(status, 1)
                self.assertIn(words, line)

    def test_each_change_of_a_byte_is_told(self) -> None:
        for at in range(0, len(RESULT), 7):
            other = RESULT[:at] + bytes([RESULT[at] ^ 1]) + RESULT[at + 1 :]
            with self.subTest(at=at):
                self.assertEqual(self.told(other, device=at % 2 == 0)[0], 1)


PROVED = TOP / "crates" / "chanmap" / "out" / "chanmap"


@unittest.skipIf(PROVED.exists(), "a proved program is there")
class Demo(unittest.TestCase):
    """The demo where no proved program is there, with another `rt`."""

    def demo(self, *words: str, rt: str = "") -> tuple[int, str, str]:
        with tempfile.TemporaryDirectory() as folder:
            if rt:
                stub = pathlib.Path(folder) / "rt"
                stub.write_text(f"#!/bin/sh\n{rt}\n", "utf-8")
                stub.chmod(0o755)
            path = f"{folder}:{pathlib.Path(sys.executable).parent}:/usr/bin:/bin"
            done = subprocess.run(
                [str(TOOLS / "demo"), *words], capture_output=True, env={"PATH": path}, check=False
            )
        return done.returncode, done.stdout.decode(), done.stderr.decode()

    def test_the_code_is_run_unproved(self) -> None:
        says = 'echo "$@" >&2; echo "checked: ended status=0" >&2; echo "run=ended proved=no" >&2'
        with tempfile.TemporaryDirectory() as folder:
            status, out, err = self.demo("--keep", folder, rt=f"cat >/dev/null; cat stdout; {says}")
            self.assertEqual((pathlib.Path(folder) / "capture").read_bytes(), CAPTURE)
            self.assertEqual((pathlib.Path(folder) / "result").read_bytes(), RESULT)
        self.assertEqual(status, 0)
        self.assertIn("     234  claim    4, output x, tick 2, found a", out)
        said = err.splitlines()
        self.assertEqual((len(said), said[1]), (2, "try -- serial"))
        self.assertIn("not proved", said[0])

    def test_a_refusal(self) -> None:
        status, out, err = self.demo(rt='echo "refused: not-yet" >&2; exit 5')
        self.assertEqual(status, 5)
        self.assertTrue(out.endswith("     127  end\n"))
        self.assertTrue(err.endswith("\nrefused: not-yet\n"))

    def test_words(self) -> None:
        for words in (["--help"], ["--version"], ["stdin", "-h"]):
            with self.subTest(words=words):
                self.assertEqual(self.demo(*words)[0], 0)
        for words in (
            ["a", "b"],
            ["--keep"],
            ["--keep="],
            ["--kept", "x"],
            ["no such file"],
            ["/"],
            [""],
            ["--", "--help"],
        ):
            with self.subTest(words=words):
                self.assertEqual(self.demo(*words)[:2], (2, ""))

    def test_options_in_any_place(self) -> None:
        example = str(TOP / "examples" / "mid_tick_activation.txt")
        for words in (["--keep", "", example], [example, "--keep", ""], [example, "--keep="]):
            with self.subTest(words=words), tempfile.TemporaryDirectory() as folder:
                asked = [word + folder if word in ("", "--keep=") else word for word in words]
                status = self.demo(*asked, rt="cat >/dev/null; cat stdout")[0]
                self.assertEqual(status, 0)
                self.assertEqual((pathlib.Path(folder) / "capture").read_bytes(), CAPTURE)


class Words(unittest.TestCase):
    """What each tool makes of its words."""

    TOOLS = ["show", "make_capture", "wav", "diff", "dev/pages", "dev/definitions"]
    TOOLS += ["dev/block_cases.py", "dev/core_cases.py", "../bench/bench", "../bench/calls"]

    def test_help_and_version(self) -> None:
        for tool in self.TOOLS:
            with self.subTest(tool=tool):
                status, out, err = run(tool, "--help")
                self.assertEqual((status, err), (0, ""))
                self.assertRegex(out.decode(), r"\nexamples?:\n")
                status, out, err = run(tool, "--version")
                self.assertEqual((status, err), (0, ""))
                self.assertTrue(out.startswith(pathlib.Path(tool).name.encode() + b" 1.0, of"))

    def test_wrong_words(self) -> None:
        for words in (
            *([tool, "--no-such-option"] for tool in self.TOOLS),
            ["show", "a", "b", "c"],
            ["dev/pages", "--list", "nope"],
            ["dev/pages", "--list", ""],
            ["dev/block_cases.py", "--check", "x"],
            ["../bench/bench", "nope"],
            ["../bench/bench", "--make", "x", "f"],
            ["../bench/bench", "--make", "0", "f"],
            ["../bench/bench", "heavy", "one_frame", "--make", "4", "f"],
            ["../bench/bench", "--turns", "0"],
            ["../bench/calls", "nope"],
            ["../bench/calls", "--turns", "0"],
        ):
            with self.subTest(words=words):
                status, out, err = run(*words)
                self.assertEqual((status, out), (2, b""))
                self.assertNotIn("Traceback", err)


class Definitions(unittest.TestCase):
    def spec(self, text: str):
        with tempfile.TemporaryDirectory() as folder:
            path = pathlib.Path(folder) / "Some.antt"
            path.write_text(text, "utf-8")
            return definitions.spec_file(path)

    def test_comments(self) -> None:
        spec = self.spec(
            "-- The head.\n-- (RFC 3550.)\nuse A.{b}\n\nabbrev pub bare : ℕ\nbare = 0\n\n"
            "-- ---- a part\n\n-- one,\n-- two\nunfoldable pub two : ℕ\ntwo = 2\n\n"
            "-- joined\ninfixl 10 ◌>>=◌\nabbrev pub ◌>>=◌ : ℕ\n\n"
            "-- a record\npub record Three : Type 0 where\n  pub x : ℕ\n\n"
            "-- ---- next\nabbrev four : ℕ\n"
            "-- a law\npub five : ℕ\n"
        )
        self.assertEqual(spec.head, "The head. (RFC 3550.)")
        self.assertEqual(
            [(one.name, one.comment) for one in spec.definitions],
            [
                ("bare", ""),
                ("two", "one, two"),
                ("◌>>=◌", "joined"),
                ("Three", "a record"),
                ("four", ""),
            ],
        )
        self.assertEqual(self.spec("-- the head\nabbrev pub one : ℕ\n").definitions[0].comment, "")


class Pages(unittest.TestCase):
    def test_functions(self) -> None:
        text = (
            "pub fn free(x: u8) -> u8\n    ensures { a }\n{\n    x\n}\n\n"
            "fn own(x: u8) -> u8\n    ensures named { a }\n"
            "{\n    x\n}\n\n"
            "impl<R: Read> Some<R> {\n    pub fn new(\n        x: u8,\n    ) -> Some<R>\n"
            "        ensures one { a }\n        ensures two { b }\n    {\n        Some\n    }\n\n"
            "    fn own(&self) {}\n}\n\n"
            "impl Source for Some<u8> {\n    fn read(&self)\n        ensures three { a }\n"
            "    {\n    }\n\n    fn plain(&self) {}\n}\n\n"
            "pub trait Source {\n    fn read(&self)\n        ensures four { a };\n}\n\n"
            "pub fn law()\n    ensures five { a\n        b }\n{}\n\n"
            "fn own()\n    ensures six {\n        a }\n{}\n"
        )
        with tempfile.TemporaryDirectory() as folder:
            path = pathlib.Path(folder) / "some.rt"
            path.write_text(text, "utf-8")
            found = [str(one) for one in pages.functions_in(path)]
        expected = ["free", "Some::new (one, two)", "Some::read (three)", "Source::read (four)"]
        expected += ["law (five)"]
        self.assertEqual(found, expected)

    def test_an_item_names_a_function(self) -> None:
        function = pages.Function("Some", "new", ("one", "two"))
        for line, holds in (
            ("- `Some::new` (`one`, `two`): x", True),
            ("- `Some::new` (`one`,\n  `two`): x", True),
            ("- `Some::new` (`one`)\n- `two`", False),
            ("- `Some::new` (`one`): two", False),
            ("- `new` (`one`, `two`)", False),
        ):
            self.assertEqual(function.words() <= pages.named(line)[0], holds)

    def test_wrapping(self) -> None:
        words = "word " * 18 + "`two words` "
        table, code = "| " + "a" * 120 + " |", "```\n" + "b " * 80 + "\n```"
        text = f"# {'c ' * 60}\n\n{words}+ 1 of\nthese\n\n- {words}end\n- next\n\n{table}\n{code}\n"
        made = wrapping.wrapped(text)
        self.assertEqual(list(wrapping.wide_lines(text)), [3, 6])
        self.assertEqual(list(wrapping.wide_lines(made)), [])
        self.assertEqual(wrapping.wrapped(made), made)
        self.assertEqual(made.split(), text.split())
        self.assertIn("word\n`two words` + 1 of these\n", made)
        self.assertIn("word\n  `two words` end\n- next\n", made)
        self.assertIn(f"\n{table}\n{code}\n", made)


if __name__ == "__main__":
    unittest.main()
