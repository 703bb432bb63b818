"""Runs of a program on a capture: their time, their memory, their instructions."""

from __future__ import annotations

import ctypes
import os
import pathlib
import subprocess
import time

KILOBYTE = 1024
PR_SET_CHILD_SUBREAPER = 36  # of prctl
YARDSTICK = pathlib.Path(__file__).resolve().parent / "yardstick" / "yardstick.rs"


def build_yardstick(folder: pathlib.Path) -> pathlib.Path:
    built = folder / "yardstick"
    options = ["--edition", "2024", "-C", "opt-level=3", "-o", str(built)]
    subprocess.run(["rustc", *options, str(YARDSTICK)], check=True)
    return built


def output(words: list[str], source: pathlib.Path) -> bytes:
    with open(source, "rb") as data:
        return subprocess.run(words, stdin=data, stdout=subprocess.PIPE, check=True).stdout


def seconds(words: list[str], source: pathlib.Path) -> float:
    """How long a run takes whose output nobody keeps."""
    with open(source, "rb") as data, open(os.devnull, "wb") as out:
        start = time.perf_counter()
        subprocess.run(words, stdin=data, stdout=out, check=True)
        return time.perf_counter() - start


def peak_memory(words: list[str], data: bytes) -> int:
    """The most bytes that a run holds: its maximum resident set, on Linux.

    What a process held before it became the program counts too, and here that would be what this
    one holds. So a shell, which holds little, starts the program and ends, and leaves it to this
    process, which only then gives it its input.
    """
    ctypes.CDLL(None).prctl(PR_SET_CHILD_SUBREAPER, 1, 0, 0, 0)
    start = ["sh", "-c", 'exec 3<&0; "$@" <&3 3<&- >/dev/null & echo $!', "sh", *words]
    with subprocess.Popen(start, stdin=subprocess.PIPE, stdout=subprocess.PIPE) as shell:
        child = int(shell.stdout.read())
        shell.wait()
        shell.stdin.write(data)
    _, status, usage = os.wait4(child, 0)
    if status != 0:
        raise subprocess.CalledProcessError(os.waitstatus_to_exitcode(status), words)
    return usage.ru_maxrss * KILOBYTE


def instructions(words: list[str], source: pathlib.Path, folder: pathlib.Path) -> int:
    """How many instructions a run takes, by callgrind."""
    counts = folder / "callgrind"
    tool = ["valgrind", "--tool=callgrind", f"--callgrind-out-file={counts}"]
    with open(source, "rb") as data, open(os.devnull, "wb") as out:
        subprocess.run([*tool, *words], stdin=data, stdout=out, stderr=out, check=True)
    for line in counts.read_text().splitlines():
        if line.startswith(("totals:", "summary:")):
            return int(line.split()[1])
    raise ValueError("callgrind wrote no totals")
