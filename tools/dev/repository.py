"""Where the repository is, and which crates it has."""

from __future__ import annotations

import pathlib

TOP = pathlib.Path(__file__).resolve().parents[2]


def rooms() -> dict[str, list[str]]:
    """The crates by their rooms, in the order of crates.txt.

    A line `# NAME: what it is` begins a room; its name is one word, and it has at least one crate.
    """
    found: dict[str, list[str]] = {}
    room = ""
    for line in (TOP / "crates.txt").read_text("utf-8").splitlines():
        if line.startswith("#"):
            room = line[1:].strip()
        elif ":" in line:
            found.setdefault(room, []).append(line.split(":")[0].split()[0])
    return found


def crates() -> list[str]:
    """The crates in the order of crates.txt."""
    return [crate for members in rooms().values() for crate in members]
