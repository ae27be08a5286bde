"""The keys of a team in etcd, and their values.

    /kemtrua/TEAM/leader             who leads, under its lease. The revision at which it was made is the term
    /kemtrua/TEAM/team               which team it is, in which cluster of etcd, and which stores count
    /kemtrua/TEAM/blocks/STORES/N    the Nth put of these stores: bytes of both files, and where they stand
    /kemtrua/TEAM/hubs/NAME          each hub, under a lease, with how far it is

A block is a head and writes, one behind the other. A block may cover several places: it was merged of theirs. Its head has the check sum
of all writes of the blocks before it, so each folder, and each restored etcd, that has another history is found out.
"""
from __future__ import annotations

import json
import re
import struct
import zlib
from collections.abc import Iterator
from dataclasses import MISSING, asdict, dataclass, fields
from typing import TypeVar

from .. import __version__
from ..errors import BadSettings, KemtruaError, NotFitting
from ..etcd import end_of
from ..versions import are_far

FORMAT = 1
LARGEST = 1 << 19  # bytes of a block: etcd takes 1.5 MiB in a request
MENDED = "use the version that made it"
UPGRADE = "upgrade all hubs to a version between them first, one after the other"
TRIGGERS, STATES = 0, 1
_HEAD, _WRITE = struct.Struct(">BII"), struct.Struct(">BQI")
_NAME = re.compile(r"[A-Za-z0-9._-]{1,64}")

Row = TypeVar("Row", bound="Rows")


class BadShared(KemtruaError):
    """What etcd has of the team isn't as it has to be, or isn't this folder's."""


@dataclass(frozen=True)
class Keys:
    """The keys of a team of this name."""

    name: str

    def __post_init__(self) -> None:
        if not _NAME.fullmatch(self.name):
            raise BadSettings(f"--team {self.name}: a team's name in etcd has 1 to 64 letters, digits, dots, dashes and underscores")

    @property
    def all(self) -> bytes:
        return f"/kemtrua/{self.name}/".encode()

    @property
    def leader(self) -> bytes:
        return self.all + b"leader"

    @property
    def team(self) -> bytes:
        return self.all + b"team"

    @property
    def hubs(self) -> bytes:
        return self.all + b"hubs/"

    def hub(self, name: str) -> bytes:
        return self.hubs + name.encode()

    @property
    def all_blocks(self) -> bytes:
        return self.all + b"blocks/"

    def blocks(self, stores: str) -> bytes:
        return self.all_blocks + f"{stores}/".encode()

    def block(self, stores: str, place: int) -> bytes:
        return self.blocks(stores) + b"%016x" % place

    def rest_of(self, stores: str, place: int) -> tuple[bytes, bytes]:
        """The range of the blocks from a place on."""
        return self.block(stores, place), end_of(self.blocks(stores))

    def place_of(self, stores: str, key: bytes) -> int | None:
        """The place of a block of these stores; None for any other key."""
        rest = key.removeprefix(self.blocks(stores))
        return int(rest, 16) if len(rest) == 16 and rest != key else None


@dataclass(frozen=True)
class Rows:
    """A value that is a JSON object. Members that aren't known are of later versions."""

    def data(self) -> bytes:
        return json.dumps(asdict(self), separators=(",", ":")).encode()

    @classmethod
    def of(cls: type[Row], data: bytes) -> Row:
        try:
            found = json.loads(data)
            return cls(**{it.name: found[it.name] for it in fields(cls) if it.name in found or it.default is MISSING})
        except (ValueError, KeyError, TypeError):
            raise BadShared(f"{data[:120]!r} in etcd is nothing that a hub of this version has put there") from None


@dataclass(frozen=True)
class LeaderRow(Rows):
    """Who leads. `oldest` is the oldest version of the hubs that were there when the term began: nothing is written that it doesn't read."""

    hub: str
    address: str
    nonce: str
    version: str
    oldest: str = ""

    def look(self) -> None:
        """Raises where this version can't stand by beside it."""
        for version in (self.version, self.oldest or self.version):
            if are_far(version, __version__):
                raise NotFitting(f"the hub {self.hub} leads in version {self.version}, beside hubs of {self.oldest or self.version}, and this one has "
                                 f"{__version__}: they are too far apart; {UPGRADE}")


@dataclass(frozen=True)
class TeamRow(Rows):
    format: int
    id: str
    generation: int
    stores: str
    cluster: str

    def look(self) -> None:
        """Raises where another version has to read what is there."""
        if self.format != FORMAT:
            raise NotFitting(f"etcd has this team in the format {self.format}, and this version of kemtrua knows {FORMAT}: {MENDED}")


@dataclass(frozen=True)
class HubRow(Rows):
    """A hub: where it listens, its version, how far it is, and what its clock shows."""

    hub: str
    address: str
    version: str
    leads: bool
    stores: str
    place: int
    at: int


@dataclass(frozen=True)
class Write:
    """Bytes that stand at an offset of one of the files."""

    file: int
    offset: int
    data: bytes

    def encoded(self) -> bytes:
        return _WRITE.pack(self.file, self.offset, len(self.data)) + self.data


@dataclass(frozen=True)
class Block:
    """Writes that came in one put, or of several that were merged. `before` is the check sum of all writes before."""

    covers: int
    before: int
    body: bytes

    def encoded(self) -> bytes:
        return _HEAD.pack(FORMAT, self.covers, self.before) + self.body

    @classmethod
    def of(cls, data: bytes) -> Block:
        if len(data) < _HEAD.size:
            raise BadShared(f"etcd has a block of {len(data)} bytes")
        form, covers, before = _HEAD.unpack_from(data)
        if form != FORMAT:
            raise NotFitting(f"etcd has a block of the format {form}, and this version of kemtrua knows {FORMAT}: {MENDED}")
        return cls(covers, before, data[_HEAD.size :])

    @property
    def after(self) -> int:
        """The check sum with these writes."""
        return sum_of(self.body, self.before)

    def writes(self) -> Iterator[Write]:
        at = 0
        while at < len(self.body):
            file, offset, length = _WRITE.unpack_from(self.body, at)
            at += _WRITE.size
            data = self.body[at : at + length]
            if file not in (TRIGGERS, STATES) or len(data) != length:
                raise BadShared("etcd has a block that is cut off, or isn't a hub's")
            yield Write(file, offset, data)
            at += length


def sum_of(body: bytes, before: int) -> int:
    return zlib.crc32(body, before)
