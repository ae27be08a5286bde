"""The ends of executions' outputs, as nodes tell them piece by piece."""
from __future__ import annotations

import base64
import binascii
import sqlite3

from ..errors import BadLine
from ..values import Problem
from .reports import OUTPUT, PIECE

FURTHEST = 2**62  # bytes that an execution may have written


def piece_of(text: object) -> bytes:
    """The bytes of a piece of output, as a line has it. Raises BadLine."""
    try:
        data = base64.b64decode(str(text).encode(), validate=True)
    except (binascii.Error, ValueError):
        raise BadLine([Problem("data", "it is no base64")]) from None
    if len(data) > PIECE:
        raise BadLine([Problem("data", f"it has {len(data)} bytes; allowed are {PIECE}")])
    return data


def text_of(data: bytes) -> str:
    return base64.b64encode(data).decode()


def add(connection: sqlite3.Connection, key: tuple[int, int], begin: int, data: bytes, at: int) -> None:
    """Takes a piece that begins at this offset of an execution's output. Of pieces that overlap what is new is taken; behind a gap the former ones go."""
    row = connection.execute("SELECT end, data FROM outputs WHERE generation = ? AND entry = ?", key).fetchone()
    end, kept = (row["end"], bytes(row["data"])) if row is not None else (0, b"")
    if row is not None and begin + len(data) <= end:
        return
    new = kept + data[end - begin :] if begin <= end else data
    connection.execute("INSERT OR REPLACE INTO outputs VALUES (?, ?, ?, ?, ?)", (*key, begin + len(data), new[-OUTPUT:], at))
