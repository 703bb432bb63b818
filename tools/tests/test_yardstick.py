"""Tests of bench's yardstick beside tools/tests/model.py: the same results and lines of faults.

Run: python3 tools/tests/test_yardstick.py     (skipped where rustc is not there)
"""

from __future__ import annotations

import importlib.util
import pathlib
import shutil
import subprocess
import sys
import tempfile
import unittest
from types import ModuleType

sys.dont_write_bytecode = True
TOP = pathlib.Path(__file__).resolve().parents[2]
sys.path[:0] = [str(TOP / folder) for folder in ("tools", "tools/tests")]
sys.path.append(str(TOP / "bench"))
import model  # noqa: E402 (these stand in other folders)
import runs  # noqa: E402
from captures import Captures  # noqa: E402
from records.text import capture_of  # noqa: E402

CAPTURE = (TOP / "crates" / "chanmap" / "stdin").read_bytes()
RESULT = (TOP / "crates" / "chanmap" / "stdout").read_bytes()
LEFT_OUT = b"which the yardstick leaves out\n"


def captures_of_bench() -> ModuleType:
    """bench/captures.py, under a name that no module here has."""
    spec = importlib.util.spec_from_file_location("bench_captures", TOP / "bench" / "captures.py")
    module = sys.modules[spec.name] = importlib.util.module_from_spec(spec)
    spec.loader.exec_module(module)
    return module


@unittest.skipUnless(shutil.which("rustc"), "rustc isn't there")
class Yardstick(unittest.TestCase):
    @classmethod
    def setUpClass(cls) -> None:
        folder = tempfile.TemporaryDirectory()
        cls.addClassCleanup(folder.cleanup)
        cls.built = str(runs.build_yardstick(pathlib.Path(folder.name)))

    def run_on(self, data: bytes) -> tuple[int, bytes, bytes]:
        """The status, and what went to standard output and standard error."""
        done = subprocess.run([self.built, "serial"], input=data, capture_output=True, check=False)
        return done.returncode, done.stdout, done.stderr

    def check(self, data: bytes) -> bool:
        """Whether the capture has a result, which is the model's. Some parts are left out."""
        got = self.run_on(data)
        if got[:2] == (5, b"") and got[2].endswith(LEFT_OUT):
            return False
        try:
            expected = (0, model.result(data), b"")
        except model.Refused as fault:
            expected = (5, b"", fault.line())
        self.assertEqual(got, expected, data.hex())
        return expected[0] == 0

    def test_the_stored_run(self) -> None:
        self.assertEqual(self.run_on(CAPTURE), (0, RESULT, b""))

    def test_what_is_left_out(self) -> None:
        """A device as JSON, and a piece of HTTP, are refused with their place."""
        for at, tag, what in ((8, b"J", b"a device as JSON"), (91, b"Q", b"a piece of HTTP")):
            with self.subTest(tag=tag):
                line = b"refused at %d: %s, %s" % (at, what, LEFT_OUT)
                data = CAPTURE[:at] + tag + CAPTURE[at + 1 :]
                self.assertEqual(self.run_on(data), (5, b"", line))

    def test_the_examples(self) -> None:
        seen = 0
        for path in sorted((TOP / "examples").glob("*.txt")):
            with self.subTest(path=path.name):
                seen += self.check(capture_of(path.read_text("utf-8")))
        self.assertGreaterEqual(seen, 2)

    def test_the_captures_of_bench(self) -> None:
        for name, make in captures_of_bench().CAPTURES.items():
            with self.subTest(name=name):
                self.assertTrue(self.check(make(8).data))

    def test_no_full_table(self) -> None:
        activation = CAPTURE[100:118]
        for count in (255, 256, 1100):
            with self.subTest(count=count):
                self.assertTrue(self.check(CAPTURE[:65] + activation * count + CAPTURE[127:]))

    def test_the_most_ticks(self) -> None:
        """The stored capture has two outputs, so two claims make a tick."""
        for claims, is_within in ((8192, True), (8194, False)):
            with self.subTest(claims=claims):
                work = model.record(b"T", claims.to_bytes(4, "big"))
                self.assertEqual(self.check(CAPTURE[:65] + work + CAPTURE[127:]), is_within)

    def test_the_stored_capture_cut_at_each_byte(self) -> None:
        for length in range(len(CAPTURE)):
            with self.subTest(length=length):
                self.assertFalse(self.check(CAPTURE[:length]))

    def test_captures_at_random(self) -> None:
        for seed in range(400):
            with self.subTest(seed=seed):
                made = Captures(seed, (1,))
                self.assertTrue(self.check(made.whole(made.records())))

    def test_damaged_captures(self) -> None:
        read = 0
        for seed in range(2000):
            with self.subTest(seed=seed):
                read += self.check(Captures(seed, (1,)).damaged())
        self.assertTrue(0 < read < 2000)


if __name__ == "__main__":
    unittest.main()
