"""What goes on a terminal: nothing that it could take for a command, colours where somebody looks, and one screen."""
from __future__ import annotations

import os
import shutil
import sys
import unicodedata
from collections.abc import Iterable, Sequence

COLOURS = {"done": "32", "runs": "36", "ended": "33", "failed": "31", "lost": "31", "missing": "31"}
CELL = 120  # characters that are shown of what somebody chose, where it may be long
HIDDEN = ("Cc", "Cf", "Cs", "Co", "Zl", "Zp")  # categories of characters that move the cursor, turn the direction of text, or can't be seen


def harmless(text: str, keeps: str = "") -> str:
    """The text with each character that a terminal may take for a command, or that hides something, as Python writes it in a literal."""
    if text.isascii() and text.isprintable():
        return text
    return "".join(one if one in keeps or unicodedata.category(one) not in HIDDEN else one.encode("unicode_escape").decode() for one in text)


def output(data: bytes) -> str:
    """An execution's output, as harmless lines."""
    return harmless(data.decode(errors="backslashreplace").replace("\r\n", "\n"), keeps="\n\t")


def has_colours() -> bool:
    return sys.stdout.isatty() and "NO_COLOR" not in os.environ and os.environ.get("TERM") != "dumb"


def height() -> int | None:
    """How many lines of a table one screen takes; None where the output is no terminal."""
    return max(5, shutil.get_terminal_size().lines - 3) if sys.stdout.isatty() else None


def table(head: Sequence[str], body: Iterable[Sequence[object]], coloured: int | None = None) -> str:
    """Columns, each as wide as its widest cell. One of them has the colour of its word, on a terminal."""
    cells = [list(head), *([harmless(str(cell)) for cell in line] for line in body)]
    widths = [max(len(line[column]) for line in cells) for column in range(len(head))]
    lines = []
    for line in cells:
        padded = [cell.ljust(width) for cell, width in zip(line, widths)]
        padded[-1] = padded[-1].rstrip()
        if coloured is not None and line[coloured] in COLOURS and has_colours():
            padded[coloured] = f"\x1b[{COLOURS[line[coloured]]}m{padded[coloured]}\x1b[0m"
        lines.append("  ".join(padded).rstrip())
    return "\n".join(lines)


def short(text: str, most: int = CELL) -> str:
    """The text, or its beginning and how much more there is."""
    return text if len(text) <= most else f"{text[:most]} .. {len(text) - most} more characters"


def span(ms: object) -> str:
    """A span for people, with two units at most."""
    if not isinstance(ms, int):
        return "-"
    seconds = ms // 1000
    if seconds < 60:
        return f"{ms / 1000:.1f}s"
    if seconds < 3600:
        return f"{seconds // 60}m{seconds % 60:02}s"
    return f"{seconds // 3600}h{seconds % 3600 // 60:02}m" if seconds < 2 * 86400 else f"{seconds // 86400}d{seconds % 86400 // 3600}h"
