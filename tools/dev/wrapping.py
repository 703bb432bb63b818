"""Lines of pages in Markdown: how wide they are, and how they are wrapped."""

from __future__ import annotations

import re
from collections.abc import Iterator

COLUMNS = 100
ITEM = re.compile(r"\s*(?:[-*]|\d+\.) +")
# A word that at the front of a line would begin something else than text.
MARK = re.compile(r"[-+*>#|]|\d+[.)]|#+|[-=]{2,}|```.*")
# A code span or a link is kept whole, with what is joined to it.
WORD = re.compile(r"(?:``.*?``|`[^`]*`|!?\[[^\]]*\]\([^)]*\)|[^\s`])+")


def parts(text: str) -> Iterator[tuple[bool, list[str]]]:
    """The lines of a page: each paragraph or item of a list, which is text, and what lies between.

    Text is marked with True. The rest is not to be wrapped: code blocks, tables, headings.
    """
    part: list[str] = []
    fence = False
    for line in text.split("\n"):
        bare = line.strip()
        is_fence = bare.startswith("```")
        is_text = bool(bare) and not (fence or is_fence or bare.startswith(("|", "#", "<")))
        if part and (not is_text or ITEM.match(line)):
            yield True, part
            part = []
        if is_text:
            part.append(line)
        else:
            yield False, [line]
        fence ^= is_fence
    if part:
        yield True, part


def filled(lines: list[str]) -> list[str]:
    """A paragraph or an item, wrapped anew."""
    found = ITEM.match(lines[0])
    front = found.group() if found else re.match(r"\s*", lines[0]).group()
    rest = " " * len(front)
    text = " ".join([lines[0][len(front) :], *(line.strip() for line in lines[1:])]).strip()
    words = WORD.findall(text)
    if "".join(words).replace(" ", "") != text.replace(" ", ""):
        return lines  # a backtick that stands alone
    made = [[words[0]]]
    for word in words[1:]:
        if len(front) + len(" ".join([*made[-1], word])) <= COLUMNS:
            made[-1].append(word)
        elif MARK.fullmatch(word) and len(made[-1]) > 1:
            made.append([made[-1].pop(), word])
        else:
            made.append([word])
    return [(rest if at else front) + " ".join(line) for at, line in enumerate(made)]


def is_wide(line: str) -> bool:
    return len(line) > COLUMNS


def wrapped(text: str) -> str:
    """A page in which each paragraph that has a line too wide is wrapped anew."""
    made: list[str] = []
    for is_text, lines in parts(text):
        made += filled(lines) if is_text and any(map(is_wide, lines)) else lines
    return "\n".join(made)


def wide_lines(text: str) -> Iterator[int]:
    """The numbers, from 1, of the lines that are too wide; tables and code blocks may be."""
    at = 0
    for is_text, lines in parts(text):
        for line in lines:
            at += 1
            if is_text and is_wide(line):
                yield at
