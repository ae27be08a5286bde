"""A second machine follows a team: `ship` writes the bytes of its trigger store as they come, and what is new of its history, and
`receive` keeps both in a folder.

What is shipped is a line for each part, and its bytes behind it:

    stream ID GENERATION NAME   from here on come the bytes of these stores, from the first one on
    bytes N                     N further ones
    whole                       all has come that was there when the stream began
    history N                   a part of what ran, as N bytes of JSON (`history/shipping.py`)

A new stream begins by itself where `current` leads to other stores. The receiver keeps the one of before until the new one is whole.
"""
from __future__ import annotations

import os
import sqlite3
import time
from collections.abc import Callable, Iterator
from typing import BinaryIO

from . import clock, durable, logs
from .backups import STREAM
from .errors import BadFolder, KemtruaError
from .folder import Folder
from .history import shipping
from .history.schema import NoHistory
from .program import STORE_FILES
from .team import FILE, Team

log = logs.logger("kemtrua.standby")

HEADER, OPEN = 16, 0xA5
LOOK_AGAIN = 0.1  # seconds
PART = 1 << 18  # bytes that are sent at once, at least
LINE = 200  # bytes of a line, at most
HISTORY_EACH = 60.0  # seconds between two looks at what is new of the history, once all of it was shipped


class Broken(KemtruaError):
    """The other side said what it can't say, or ended in the middle of something."""


class Store:
    """The trigger store that is shipped. Only blocks that are synced are sent, and never the closed gate behind them."""

    def __init__(self, stores: str):
        self.name = os.path.basename(stores)
        self._file = open(os.path.join(stores, STORE_FILES[0]), "rb")
        self._sent = 0

    def close(self) -> None:
        self._file.close()

    def more(self) -> Iterator[bytes]:
        """What has come since the last call, by parts."""
        header = os.pread(self._file.fileno(), HEADER, 0)  # (before the end, so that what its slots lead to is sent)
        end = self._end()
        if end == self._sent:
            return
        os.fsync(self._file.fileno())  # (the last gate may have been opened, and not be synced yet)
        if self._sent == 0:
            self._sent = HEADER
            yield header
        while self._sent < end:
            data = os.pread(self._file.fileno(), min(PART, end - self._sent), self._sent)
            self._sent += len(data)
            yield data

    def _end(self) -> int:
        """The offset of the closed gate."""
        at = max(self._sent, HEADER)
        while True:
            block = os.pread(self._file.fileno(), 5, at)
            if len(block) < 5 or block[0] != OPEN:
                return at
            at += 5 + int.from_bytes(block[1:], "big")


def ship(home: str, write: Callable[[bytes], object], goes_on: Callable[[], bool] = lambda: True) -> None:
    """Ships the stores of a hub's folder, whichever count, until the output closes."""
    store: Store | None = None
    history = Histories(home)
    while goes_on():
        stores = Folder(home).current
        if store is None or store.name != os.path.basename(stores):
            if store is not None:
                _send(store, write)  # (all of it, before the new one begins)
                store.close()
            team = Team.read(stores)
            if team is None:
                raise BadFolder(f"{stores} has no {FILE}: let a hub work there once")
            try:
                store = Store(stores)
            except FileNotFoundError:
                store = None  # (these were removed meanwhile, and others count)
                continue
            write(f"stream {team.id} {team.generation} {store.name}\n".encode())
            _send(store, write)
            write(b"whole\n")
            log.info("%s is shipped from now on", stores)
        _send(store, write)
        history.send(write)  # (one part, so that the store's bytes wait for no more)
        time.sleep(LOOK_AGAIN)
    if store is not None:
        store.close()


class Histories:
    """Ships the history of a hub's folder: all of it, and then once a minute what is new."""

    def __init__(self, home: str):
        self._shipped, self._next = shipping.Shipped(home), 0.0

    def send(self, write: Callable[[bytes], object]) -> None:
        if clock.uptime() < self._next:
            return
        part = self._shipped.more()
        if part is None:
            self._next = clock.uptime() + HISTORY_EACH
        else:
            write(b"history %d\n" % len(part) + part)


def _send(store: Store, write: Callable[[bytes], object]) -> None:
    for data in store.more():
        write(b"bytes %d\n" % len(data) + data)


class Receiver:
    """Keeps a stream in a folder: `stream` has the last one that was whole, and grows; one that isn't whole yet is `stream.new`."""

    def __init__(self, folder: str):
        self.folder = os.path.abspath(folder)
        self._team: Team | None = None
        self._file: BinaryIO | None = None
        self._history: shipping.Kept | None = None
        self._is_whole = False

    def receive(self, source: BinaryIO) -> None:
        """Takes what comes, to its end. Raises Broken where that is none, or another team's."""
        try:
            durable.make_folder(self.folder)
            while line := source.readline(LINE):
                self._take(line, source)
        except OSError as error:
            raise BadFolder.of(error, self.folder) from None
        finally:
            if self._file is not None:
                self._file.close()
            if self._history is not None:
                self._history.close()

    def _take(self, line: bytes, source: BinaryIO) -> None:
        words = line.decode(errors="replace").split()
        if words[:1] == ["stream"] and len(words) == 4 and words[2].isdecimal():
            self._begin(Team(words[1], int(words[2])), words[3])
        elif words[:1] == ["bytes"] and len(words) == 2 and words[1].isdecimal() and self._file is not None:
            self._add(source, int(words[1]))
        elif words == ["whole"] and self._file is not None:
            self._put()
        elif words[:1] == ["history"] and len(words) == 2 and words[1].isdecimal() and self._file is not None:
            self._take_history(source, int(words[1]))
        else:
            raise Broken(f"{line[:80]!r} is nothing that kemtrua ship says")

    def _begin(self, team: Team, name: str) -> None:
        known = Team.read(self.folder)
        if known is not None and known.id != team.id:
            raise BadFolder(f"{self.folder} has the stream of {known}, and this one is of {team}: name another folder")
        if self._file is not None:
            self._file.close()
        self._team, self._is_whole = team, False
        self._file = open(os.path.join(self.folder, f"{STREAM}.new"), "wb", buffering=0)
        log.info("a stream begins: %s, stores %s", team, name)

    def _add(self, source: BinaryIO, count: int) -> None:
        assert self._file is not None
        while count:
            data = source.read(min(count, PART))
            if not data:
                raise Broken("the stream ended in the middle of something")
            self._file.write(data)
            count -= len(data)
        if self._is_whole:
            os.fsync(self._file.fileno())

    def _take_history(self, source: BinaryIO, count: int) -> None:
        """Takes a part of the history. Where it can't be kept, the store's stream goes on all the same."""
        if count > shipping.MOST:
            raise Broken(f"a part of the history has {count} bytes; allowed are {shipping.MOST}")
        data = source.read(count)
        if len(data) < count:
            raise Broken("the stream ended in the middle of something")
        try:
            if self._history is None:
                self._history = shipping.Kept(self.folder)
            self._history.take(data)
        except shipping.BadPart as error:
            raise Broken(str(error)) from None
        except (NoHistory, sqlite3.Error) as error:
            log.error("a part of the history isn't kept: %s", error)

    def _put(self) -> None:
        """From now on this stream counts, and the one of before is gone."""
        assert self._file is not None and self._team is not None
        os.fsync(self._file.fileno())
        self._team.write(self.folder)
        os.replace(os.path.join(self.folder, f"{STREAM}.new"), os.path.join(self.folder, STREAM))
        durable.sync(self.folder)
        self._is_whole = True
        log.info("it is whole: all that was there when it began has come")
