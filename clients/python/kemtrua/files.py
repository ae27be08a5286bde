"""Files of a user's: a document, or the lines of a script."""
from __future__ import annotations

import sys
from collections.abc import Iterator
from dataclasses import dataclass

from .checking import DOCUMENT_LIMIT, Line, check_document, is_document, lines_of, problems_of, value_of
from .errors import BadLine, BadSettings
from .values import Problem


@dataclass(frozen=True)
class Found:
    """What a file says: the lines, each with its place in the file, and what is wrong with it."""

    kind: str
    lines: list[tuple[str, Line]]
    wrong: list[str]


def read(path: str) -> Found:
    """What a file says. `-` is standard input."""
    data = _bytes_of(path)
    first = next((line for line in data.split(b"\n") if line.strip(b" \t\r")), b"")
    try:
        value = value_of(first)
    except BadLine:
        value = None
    if isinstance(value, dict) and "do" in value:
        return _script(path, data)
    if is_document(value) or not first.lstrip().startswith(b'{"do"'):
        return _document(path, data)
    return _script(path, data)


def _bytes_of(path: str) -> bytes:
    try:
        if path == "-":
            return sys.stdin.buffer.read()
        with open(path, "rb") as file:
            return file.read()
    except OSError as error:
        raise BadSettings(f"{path} can't be read: {error.strerror}") from None


def _script(path: str, data: bytes) -> Found:
    lines: list[tuple[str, Line]] = []
    wrong: list[str] = []
    for number, text in enumerate(data.split(b"\n"), 1):
        if not text.strip(b" \t\r"):
            continue
        place = f"{path}: line {number}"
        try:
            value = value_of(text)
        except BadLine as error:
            wrong.append(f"{place}: {error}")
            continue
        found = list(problems_of(value))
        wrong += _said(place, found)
        if not found:
            assert isinstance(value, dict)
            lines.append((place, value))
    return Found("script", lines, wrong)


def _document(path: str, data: bytes) -> Found:
    if len(data) > DOCUMENT_LIMIT:
        return Found("document", [], [f"{path}: it has {len(data)} bytes; a document has at most {DOCUMENT_LIMIT}"])
    try:
        value = value_of(data)
    except BadLine as error:
        return Found("document", [], [f"{path}: {error}"])
    wrong = _said(path, check_document(value))
    if wrong:
        return Found("document", [], wrong)
    assert isinstance(value, dict)
    return Found("document", [(f"{path}: {_name(line)}", line) for line in lines_of(value)], [])


def _said(place: str, problems: Iterator[Problem] | list[Problem]) -> list[str]:
    return [f"{place}: {problem}" for problem in problems]


def _name(line: Line) -> str:
    inner = next((value for value in line.values() if isinstance(value, dict)), line)
    return f"{line['do']} {inner.get('name', '')}".strip()
