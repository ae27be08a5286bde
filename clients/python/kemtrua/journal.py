"""Reads the history of a trigger store from its file, without the program."""
from __future__ import annotations

import os
import struct
from collections.abc import Iterator
from dataclasses import dataclass

HEADER = 16
OPEN = 0xA5
VERSIONS = (1, 2)
SLOTS = (6, 11)  # the gates of the header's slots, of which the one with the greater offset counts
SNAPSHOTS = (0xF0, 0xF1)  # first bytes of payloads that are no transactions: of a snapshot's head, and of its other parts

WORDS = ("add_job delete_job add_trigger delete_trigger pause_trigger resume_trigger pause_group resume_group add_calendar delete_calendar "
         "add_zone delete_zone trigger_now threshold join leave acquire release fire complete misfires recover migrate reset_trigger pause_job_group resume_job_group").split()


class NotRead(Exception):
    """The file is no journal of a version that is known here, or it is damaged."""


@dataclass(frozen=True)
class Entry:
    """A transaction: its number from 1, the reading of the clock in ms, the word of its line, and what it names.

    `node` is who acts, or who joins; `epoch` is that of who acts. `failed` is the node that a recovery is for. `code` is
    the place of a completion's code in the list of codes.
    """

    number: int
    at: int
    word: str
    node: str | None = None
    epoch: int | None = None
    entry: int | None = None
    failed: str | None = None
    code: int | None = None


def payloads_of(path: str | os.PathLike[str], begin: int = HEADER) -> Iterator[bytes]:
    """The payloads of a journal from a gate on, up to its closed gate. What another program adds meanwhile is there or isn't."""
    with open(path, "rb") as file:
        header = file.read(HEADER)
        if len(header) < HEADER or header[:4] != b"QZ23" or header[4] not in VERSIONS:
            raise NotRead(f"{path} is no journal of the versions {VERSIONS}")
        file.seek(begin)
        while (gate := file.read(1)) == bytes([OPEN]):
            length = int.from_bytes(file.read(4), "big")
            payload = file.read(length)
            if len(payload) != length:
                raise NotRead(f"{path} ends inside a payload")
            yield payload
        if not gate:
            raise NotRead(f"{path} ends without a gate")


def _text(data: bytes, at: int) -> tuple[str, int]:
    end = at + 2 + int.from_bytes(data[at : at + 2], "big")
    return data[at + 2 : end].decode(), end


def entry_of(number: int, record: bytes) -> Entry:
    """The transaction of a record."""
    moment = struct.unpack_from(">q", record, 1)[0]
    node, epoch, at = None, None, 10
    if record[9] == 1:
        node, at = _text(record, 10)
        epoch, at = struct.unpack_from(">Q", record, at)[0], at + 8
    at += 4  # the seat
    word = WORDS[record[at]] if record[at] < len(WORDS) else f"command {record[at]}"
    if word == "join":
        return Entry(number, moment, word, _text(record, at + 1)[0])
    if word == "recover":
        return Entry(number, moment, word, node, epoch, failed=_text(record, at + 1)[0])
    named = struct.unpack_from(">Q", record, at + 1)[0] if word in ("release", "fire", "complete") else None
    return Entry(number, moment, word, node, epoch, named, code=record[at + 9] if word == "complete" else None)


def entries_of(path: str | os.PathLike[str]) -> Iterator[Entry]:
    """The transactions of a trigger store, in order."""
    number = 0
    for payload in payloads_of(path):
        if payload[0] not in SNAPSHOTS:
            number += 1
            yield entry_of(number, payload)


def snapshot_in(path: str | os.PathLike[str]) -> tuple[int, int] | None:
    """The offset at which the snapshot in use of a trigger store ends, and how many bytes it has; None where there is none, or it can't be read."""
    try:
        with open(path, "rb") as file:
            header = file.read(HEADER)
            slots = [int.from_bytes(header[gate + 1 : gate + 5], "big") for gate in SLOTS if header[gate : gate + 1] == bytes([OPEN])]
            begin = at = max(slots, default=0)
            while at:
                file.seek(at)
                block = file.read(6)  # the gate, the length, and the first byte of the payload
                if len(block) < 6 or block[0] != OPEN or block[5] != SNAPSHOTS[at != begin]:
                    break
                at += 5 + int.from_bytes(block[1:5], "big")
    except OSError:
        return None
    return (at, at - begin) if at > begin else None


def set_back(path: str | os.PathLike[str]) -> bool:
    """Has a trigger store begin at the snapshot before the one in use, or else at its first payload. False where it begins there already.

    It leaves the same tables, whichever of its snapshots an opening begins at. It is for a copy that nobody has open.
    """
    with open(path, "r+b") as file:
        header = bytearray(file.read(HEADER))
        begins = {gate: int.from_bytes(header[gate + 1 : gate + 5], "big") for gate in SLOTS if header[gate] == OPEN}
        if not begins or (latest := max(begins.values())) == HEADER:
            return False
        for gate, begin in begins.items():
            if begin == latest:
                header[gate] = 0
        if begins_with_snapshot(path) and min(begins.values()) == latest:
            header[SLOTS[0] : SLOTS[0] + 5] = bytes([OPEN]) + HEADER.to_bytes(4, "big")
        file.seek(0)
        file.write(header)
    return True


def begins_with_snapshot(path: str | os.PathLike[str]) -> bool:
    """Whether a trigger store's first payload is a snapshot's, as in one that was compacted."""
    with open(path, "rb") as file:
        file.seek(HEADER)
        block = file.read(6)
    return len(block) == 6 and block[0] == OPEN and block[5] == SNAPSHOTS[0]
