"""A hub's folder, as far as it surely has what etcd has.

The file `etcd.json` in the folder says how far: up to which place the files of which stores are etcd's. What stands behind that in them
came of a hub that couldn't put it, or of one that was killed. It is never opened: the files are cut there, and go on with etcd's bytes.
"""
from __future__ import annotations

import base64
import json
import os
from dataclasses import asdict, dataclass, replace
from typing import Any

from .. import durable, hooks, logs
from ..errors import BadFolder
from ..folder import CURRENT, LOCK_WITHIN, STORES, Folder, begin, remove_all
from ..journal import HEADER
from ..program import STORE_FILES, wait_until_free
from ..team import Team
from .layout import BadShared, Block, TeamRow, Write
from .tail import CLOSED, Tail

log = logs.logger("kemtrua.hub")

FILE = "etcd.json"
DROPPED = "dropped"  # how the name of a folder ends whose stores aren't etcd's


@dataclass(frozen=True)
class Known:
    """How far a folder's files are etcd's: so many places, their check sum, the bytes and headers of both files, and etcd's revision."""

    cluster: str
    id: str
    generation: int
    stores: str
    place: int = 0
    sum: int = 0
    sizes: tuple[int, int] = (0, 0)
    headers: tuple[bytes, bytes] = (b"", b"")
    revision: int = 0

    @classmethod
    def read(cls, folder: str) -> Known | None:
        """What the folder says; None where it says nothing that can be understood."""
        try:
            with open(os.path.join(folder, FILE), encoding="utf-8") as file:
                found: dict[str, Any] = json.load(file)
            found["headers"] = tuple(base64.b64decode(it) for it in found["headers"])
            found["sizes"] = tuple(found["sizes"])
            return cls(**found)
        except FileNotFoundError:
            return None
        except (OSError, ValueError, TypeError, KeyError, AttributeError) as error:
            log.warning("%s/%s can't be read (%s): the stores are taken from etcd anew", folder, FILE, error)
            return None

    def write(self, folder: str) -> None:
        found = {**asdict(self), "headers": [base64.b64encode(it).decode() for it in self.headers]}
        durable.write(os.path.join(folder, FILE), json.dumps(found).encode() + b"\n")

    def fits(self, row: TeamRow) -> bool:
        """Whether these are the stores that count."""
        return (self.id, self.generation, self.stores, self.cluster) == (row.id, row.generation, row.stores, row.cluster)

    def is_later_than(self, row: TeamRow, revision: int) -> bool:
        """Whether this folder has seen more of the team than etcd has at this revision."""
        return self.id == row.id and self.generation >= row.generation and self.revision > revision

    @property
    def ends(self) -> tuple[int, int]:
        """The offsets of the closed gates."""
        return max(self.sizes[0] - len(CLOSED), HEADER), max(self.sizes[1] - len(CLOSED), HEADER)

    def with_writes(self, writes: list[Write], block: Block, revision: int) -> Known:
        """The same with those of a further block."""
        sizes, headers = list(self.sizes), list(self.headers)
        for it in writes:
            sizes[it.file] = max(sizes[it.file], it.offset + len(it.data))
            if it.offset == 0:
                headers[it.file] = it.data[:HEADER]
        return replace(self, place=self.place + block.covers, sum=block.after, sizes=(sizes[0], sizes[1]), headers=(headers[0], headers[1]),
                       revision=max(revision, self.revision))


class Mirror:
    """The files of the stores that count. It writes what comes, in order; `save` lets the next start begin there."""

    def __init__(self, folder: Folder, known: Known):
        self.known, self._folder, self._saved = known, folder, known
        self._keeps_own = False  # where a test has it break the rule
        self.stores = os.path.join(folder.path, STORES, known.stores)
        self._files = [os.open(os.path.join(self.stores, name), os.O_RDWR | os.O_CREAT | os.O_CLOEXEC, 0o640) for name in STORE_FILES]

    @classmethod
    def begun(cls, folder: Folder, row: TeamRow, accepts: bool = False) -> Mirror:
        """A mirror of the stores that count: that of the folder, where it has one of them, and else a new one.

        With `accepts` an etcd is taken that knows an earlier generation than the folder.
        """
        own = Team.read(folder.path)
        if own is not None and own.id != row.id:
            raise BadFolder(f"etcd has team {row.id}, and {folder.path} is of {own}: name another folder, or another team")
        if own is not None and own.generation > row.generation and not accepts:
            raise BadFolder(f"{folder.path} is of {own}, and etcd has generation {row.generation}: where a backup was restored to the "
                            "folder, delete the team in etcd, as the page on several hubs says")
        if os.path.basename(row.stores) != row.stores or row.stores.startswith("."):
            raise BadShared(f"etcd names the stores {row.stores!r}")
        known, at = Known.read(folder.path), os.path.join(folder.path, STORES, row.stores)
        if os.path.isdir(at):
            wait_until_free(at, LOCK_WITHIN)  # (the program of a hub that was killed may add something still)
        if known is None or not known.fits(row) or not has_all(known, at):
            move_away(at)
            begin(at)
            known = Known(row.cluster, row.id, row.generation, row.stores)
        made = cls(folder, known)
        made._cut()
        return made

    def close(self) -> None:
        while self._files:
            os.close(self._files.pop())

    def _cut(self) -> None:
        """Takes away what stands behind the known place, and puts the header in place that was there then."""
        known = self.known
        if hooks.asked("own_tail"):
            self._keeps_own = any(os.fstat(it).st_size > size > 0 for it, size in zip(self._files, known.sizes))
            return
        for file, name in enumerate(STORE_FILES):
            size = os.fstat(self._files[file]).st_size
            if size > known.sizes[file]:
                if known.place:
                    log.warning("%s: %d bytes are dropped that nobody here knows etcd to have; what it has of them is read from there",
                                name, size - known.sizes[file])
                os.ftruncate(self._files[file], known.sizes[file])
            if known.headers[file]:
                os.pwrite(self._files[file], known.headers[file], 0)
            if known.sizes[file]:
                os.pwrite(self._files[file], CLOSED, known.sizes[file] - len(CLOSED))

    def apply(self, place: int, block: Block, revision: int) -> None:
        """Writes a block. One that begins before the known place was merged: its bytes are the same, and those behind are new."""
        known = self.known
        if place > known.place or place == known.place and block.before != known.sum:
            raise BadShared(f"etcd's block {place} doesn't follow on what {self._folder.path} has up to {known.place}: "
                            "its history is another one")
        writes = list(block.writes())
        for it in writes:
            if not self._keeps_own:
                os.pwrite(self._files[it.file], it.data, it.offset)
        before = known if place == known.place else replace(known, place=place, sum=block.before)
        self.known = before.with_writes(writes, block, revision)

    def save(self) -> None:
        """From now on the next start begins here."""
        if self._saved.place != self.known.place or self._saved.stores != self.known.stores:
            for descriptor in self._files:
                os.fsync(descriptor)
            self.known.write(self._folder.path)
            self._saved = self.known

    def finish(self) -> Team:
        """From now on these stores are the folder's. Gives their team."""
        self.save()
        team = Team(self.known.id, self.known.generation)
        if Team.read(self._folder.path) != team:
            team.write(self._folder.path)
        link = os.path.join(self._folder.path, CURRENT)
        if not os.path.islink(link) or os.readlink(link) != os.path.join(STORES, self.known.stores):
            self._folder.finish(self.stores, team)
            self._folder.prune()
        return team

    def tail(self) -> Tail:
        """What the program adds from here on."""
        return Tail(self.stores, self.known.ends, self.known.headers)


def has_all(known: Known, at: str) -> bool:
    """Whether the files are there, with as many bytes as the folder says."""
    try:
        return all(os.path.getsize(os.path.join(at, name)) >= size for name, size in zip(STORE_FILES, known.sizes))
    except OSError:
        return False


def move_away(at: str) -> None:
    """Stores of this name that may not be etcd's keep their files under another name, and are never opened."""
    if not os.path.isdir(at):
        return
    if not any(os.path.exists(os.path.join(at, name)) for name in STORE_FILES):
        remove_all(at)
        return
    number = 1
    while os.path.exists(aside := f"{at}-{DROPPED}-{number}"):
        number += 1
    os.rename(at, aside)
    durable.sync(os.path.dirname(at))
    log.warning("%s isn't known to be what etcd has: it is %s from now on, and isn't used", at, aside)
