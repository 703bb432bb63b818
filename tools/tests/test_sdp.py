"""Tests of `chanmap sdp` and `chanmap from-sdp` on the built program, beside model_sdp.py.

Run: python3 tools/tests/test_sdp.py     (the program must be built: `rt run` in crates/chanmap)
"""

from __future__ import annotations

import pathlib
import random
import re
import shutil
import subprocess
import sys
import tempfile
import unittest

sys.dont_write_bytecode = True
sys.path.insert(0, str(pathlib.Path(__file__).resolve().parent))
import model  # noqa: E402 (these stand beside this file)
import model_sdp  # noqa: E402
from captures import Captures, HttpCaptures  # noqa: E402
from test_program import CAPTURE, MOST, PROGRAM, USAGE, run  # noqa: E402

EXAMPLES = pathlib.Path(__file__).resolve().parents[2] / "examples" / "sdp"
FRONT = b"v=0\no=- 1 1 IN IP4 192.0.2.1\ns=-\nt=0 0\n"
NAMES = {2: "L16", 3: "L24"}


def setUpModule() -> None:
    if not PROGRAM.exists():
        raise unittest.SkipTest("the program isn't built")


def described(data: bytes) -> bytes:
    """The description of a capture's device, by the second writer."""
    device = model.read_capture(data).device
    outputs = [
        model_sdp.Stream(0, one.payload_type, NAMES[one.width], device.hz, one.channels)
        for one in device.outputs
    ]
    return model_sdp.description(device.hz, device.frames, outputs)


class Written(unittest.TestCase):
    def check(self, data: bytes) -> bool:
        """Whether the capture has a description, which is the model's."""
        try:
            expected = (0, described(data), b"")
        except model.Refused as fault:
            expected = (5, b"", fault.line())
        self.assertEqual(run(["sdp"], data), expected, data.hex())
        return expected[0] == 0

    def test_the_stored_capture(self) -> None:
        self.assertTrue(self.check(CAPTURE))

    def test_the_time_of_a_tick(self) -> None:
        for frames in range(1, 241):
            with self.subTest(frames=frames):
                data = CAPTURE[:17] + frames.to_bytes(2, "big") + CAPTURE[19:65] + CAPTURE[127:]
                self.assertTrue(self.check(data))

    def test_captures_at_random(self) -> None:
        """Half are plain, and are read; of the others some have a device that is refused."""
        read = 0
        for seed in range(300):
            with self.subTest(seed=seed):
                captures = (Captures if seed % 2 else HttpCaptures)(seed)
                is_read = self.check(captures.whole(captures.records()))
                self.assertTrue(is_read or seed % 2 == 0)
                read += is_read
        self.assertTrue(250 < read < 300, read)

    def test_damaged_captures(self) -> None:
        read = sum(self.check(Captures(seed).damaged()) for seed in range(500))
        self.assertTrue(0 < read < 500)

    def test_output_that_cannot_be_written(self) -> None:
        with open("/dev/full", "wb") as full:
            done = subprocess.run(
                [str(PROGRAM), "sdp"], input=CAPTURE, stdout=full, stderr=subprocess.PIPE,
                timeout=120, check=False,
            )
        self.assertEqual((done.returncode, done.stderr), (4, b"write fault\n"))

    @unittest.skipUnless(shutil.which("ffprobe"), "ffprobe isn't there")
    def test_ffprobe_reads_it(self) -> None:
        """ffprobe waits for packets; what it says of the streams in the meantime is enough."""
        _, text, _ = run(["sdp"], CAPTURE)
        with tempfile.NamedTemporaryFile(suffix=".sdp") as file:
            file.write(text)
            file.flush()
            words = ["-v", "debug", "-protocol_whitelist", "file,rtp,udp", "-listen_timeout", "1"]
            done = subprocess.run(
                ["ffprobe", *words, "-i", file.name], capture_output=True, timeout=60, check=False
            )
        told = done.stderr.decode("utf-8", "replace")
        self.assertEqual(
            re.findall(r"audio codec set to: (\w+)", told), ["pcm_s16be", "pcm_s24be"], told
        )
        self.assertEqual(re.findall(r"audio samplerate set to: (\d+)", told), ["48000"] * 2, told)
        self.assertEqual(re.findall(r"audio channels set to: (\d+)", told), ["2"] * 2, told)


def media(value: bytes, *lines: bytes) -> bytes:
    """A description of one section, whose `m=audio` line has this value."""
    return FRONT + b"\n".join([b"m=audio " + value, *lines]) + b"\n"


def refusals() -> dict[bytes, bytes]:
    """Texts with the reason for which each is refused, also at limits and one past them."""
    l24 = b"a=rtpmap:98 L24/48000"
    wide = [b"m=audio 5004 RTP/AVP 98\n%s/%d\n" % (l24, channels) for channels in (64, 64, 1)]
    return {
        b"": b"start",
        b"\n\r\n": b"start",
        b"v=0\r": b"start",
        b"V=0\n": b"start",
        b"\nv=0\n\nx\n": b"line 4",
        b"v=0\n=\n": b"line 2",
        b"v=0\n": b"empty",
        media(b"65536 RTP/AVP 10"): b"media 5",
        media(b"00000005004 RTP/AVP 10"): b"media 5",
        media(b"5004 RTP/AVP 10 128"): b"media 5",
        media(b"5004 RTP/AVP 00000000010"): b"media 5",
        media(b"5004 RTP/AVP  10"): b"media 5",
        media(b"5004 RTP/AVP 98", l24 + b"/2/1"): b"map 6",
        media(b"5004 RTP/AVP 98", b"a=rtpmap:98 L24/4294967296"): b"map 6",
        media(b"5004 RTP/AVP 98", b"a=rtpmap:98 L24/00000048000"): b"map 6",
        media(b"5004 RTP/AVP 98", b"a=rtpmap:98 L24/48000/256"): b"map 6",
        media(b"5004 RTP/AVP 98", b"a=rtpmap:00000000098 L24/x"): b"empty",
        media(b"5004 RTP/AVP 98", b"a=rtpmap:98 L24/8000"): b"device",
        media(b"5004 RTP/AVP 98", b"a=rtpmap:98 L24/48000/65"): b"device",
        media(b"5004 RTP/AVP 10", b"m=audio 5006 RTP/AVP 98", l24): b"rates",
        media(b"5004 RTP/AVP 10", b"\n".join([b"m=audio 5004 RTP/AVP 10"] * 16)): b"device",
        FRONT + b"".join(wide): b"device",
    }


class Read(unittest.TestCase):
    def check(self, text: bytes, frames: int) -> bool:
        """Whether of the text a capture is made, which is the model's."""
        try:
            expected = (0, model_sdp.made(text, frames), b"")
        except model_sdp.Declined as fault:
            expected = (10, b"", fault.line())
        self.assertEqual(run(["from-sdp", str(frames)], text), expected, text[:2000])
        return expected[0] == 0

    def test_words(self) -> None:
        for words in (
            [], ["0"], ["241"], ["-1"], ["48.0"], [" 48"], [""], ["48", "48"], ["1" * 30], ["0x30"]
        ):
            with self.subTest(words=words):
                self.assertEqual(run(["from-sdp", *words], FRONT), (2, b"", USAGE))
        text = media(b"5004 RTP/AVP 10")
        for word in ("1", "+1", "0" * 40 + "1", "240"):
            with self.subTest(word=word):
                expected = (0, model_sdp.made(text, int(word)), b"")
                self.assertEqual(run(["from-sdp", word], text), expected)

    def test_the_examples(self) -> None:
        """Each also with the other end of lines, and without its last one."""
        for path in sorted(EXAMPLES.glob("*.sdp")):
            text = path.read_bytes().replace(b"\r\n", b"\n")
            for ended in (text, text.replace(b"\n", b"\r\n"), text.rstrip(b"\n")):
                with self.subTest(path=path.name):
                    self.assertTrue(self.check(ended, 6))

    def test_refusals(self) -> None:
        for text, reason in refusals().items():
            with self.subTest(text=text):
                self.assertFalse(self.check(text, 1))
                self.assertEqual(
                    run(["from-sdp", "1"], text), (10, b"", b"sdp refused: %s\n" % reason)
                )

    def test_numbers_of_ten_digits(self) -> None:
        text = media(b"0000005004/0 RTP/AVP 0000000098", b"a=rtpmap:0000000098 L24/0000048000")
        self.assertTrue(self.check(text, 48))

    def test_payloads(self) -> None:
        """A packet holds 1440 bytes: 60 frames of 8 channels of L24."""
        text = media(b"5004 RTP/AVP 98", b"a=rtpmap:98 L24/48000/8")
        self.assertTrue(self.check(text, 60))
        self.assertFalse(self.check(text, 61))

    def test_long_texts(self) -> None:
        """64 MiB: one line, empty lines, words of one line; and one byte more."""
        self.assertFalse(self.check(b"x" * MOST, 48))
        text = media(b"5004 RTP/AVP 10")
        for more in (b"a=" + b"x" * MOST, b"\n" * MOST, b"m=audio 1 RTP/AVP" + b" 96" * (MOST // 3)):
            with self.subTest(more=more[:8]):
                self.assertEqual(
                    run(["from-sdp", "48"], (text + more)[:MOST])[:1],
                    (0,),
                )
        self.assertEqual(run(["from-sdp", "48"], b"x" * (MOST + 1)), (7, b"", b"too long\n"))

    def test_what_is_written_is_read(self) -> None:
        """The description of a made capture is read as the same streams."""
        for path in sorted(EXAMPLES.glob("*.sdp")):
            with self.subTest(path=path.name):
                made = model_sdp.made(path.read_bytes(), 6)
                status, text, _ = run(["sdp"], made)
                self.assertEqual(status, 0)
                self.assertEqual(run(["from-sdp", "6"], text), (0, made, b""))
                self.assertEqual(
                    run(["serial"], made), (0, b"CHMRES2\n" + model_sdp.record(b"E", b""), b"")
                )

    def test_texts_at_random(self) -> None:
        made = 0
        for seed in range(3000):
            with self.subTest(seed=seed):
                made += self.check(text_at_random(random.Random(seed)), 6)
        self.assertTrue(300 < made < 2700, made)


LINES = [
    *[b"m=audio 5004 RTP/AVP 98", b"m=audio 5006/2 RTP/AVP 97 98", b"m=audio 1 RTP/AVP 10 11"],
    *[b"m=audio 1 RTP/AVP 11", b"m=video 1 RTP/AVP 98", b"m=audio 1 udp x", b"m=", b"a=recvonly"],
    *[b"a=rtpmap:98 L24/48000/2", b"a=rtpmap:97 l16/48000", b"a=rtpmap:98 L16/48000/8"],
    *[b"a=rtpmap:10 L16/48000/2", b"a=rtpmap:96 L24/x", b"a=rtpmap:98 opus/48000/2", b"", b"a="],
    *[b"c=IN IP4 239.0.0.1/32", b"a=ptime:1", b"a=mediaclk:direct=0", b"b=AS:1"],
]
BYTES = b"0129/ :=amvxL\r\n\t\0\xff"


def text_at_random(source: random.Random) -> bytes:
    """A few lines, of which in some texts a byte is changed, left out or put in."""
    lines = [b"v=0", *(source.choice(LINES) for _ in range(source.randrange(8)))]
    end = source.choice([b"\n", b"\r\n"])
    text = end.join(lines) + source.choice([b"", end])
    if source.random() < 0.4:
        place = source.randrange(len(text))
        byte = bytes([source.choice(BYTES)])
        text = source.choice(
            [text[:place] + byte + text[place + 1 :], text[:place] + text[place + 1 :],
             text[:place] + byte + text[place:]]
        )
    return text


if __name__ == "__main__":
    if not PROGRAM.exists():
        sys.exit("test_sdp: the program isn't built: run `rt run` in crates/chanmap")
    unittest.main()
