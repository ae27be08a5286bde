"""Reports that no hub has acknowledged yet: a file each, in a folder of the node's own. So they outlive the node, and a hub that is away."""
from __future__ import annotations

import json
import os
import re
import time
from collections.abc import Iterator
from dataclasses import dataclass

from . import durable, logs
from .errors import BadLine, BadSettings
from .history.outputs import text_of
from .history.reports import OUTPUT, Report

log = logs.logger("kemtrua.node")

DAYS, BYTES = 7, 2**30  # how long a report is kept, and how many bytes all of them may have
IN_MEMORY = 1000  # reports that are kept without a folder, or where its disk is full; of them so many with their output:
WITH_OUTPUT = 100
FILE = re.compile(r"([0-9]+)-([0-9]+)\.json")
SAY_AGAIN = 600.0  # seconds between two lines of the log about the same trouble
LOOK_AGAIN = 600.0  # seconds between two looks at what is too old

Key = tuple[int, int]  # the generation and the entry number


@dataclass(frozen=True)
class Kept:
    """A report, and the end of the output, which begins at an offset."""

    report: Report
    begin: int
    output: bytes

    @property
    def key(self) -> Key:
        return self.report.generation, self.report.entry


class Spool:
    """Not safe for threads: whoever has it guards it. Where the disk refuses a report, it is kept in memory, a number of them at most."""

    def __init__(self, folder: str | None):
        self._folder = folder
        self._memory: dict[Key, Kept] = {}
        self._said = self._looked = -LOOK_AGAIN
        self._bytes = 0
        if folder is not None:
            try:
                os.makedirs(folder, mode=0o700, exist_ok=True)
                for name in os.listdir(folder):
                    if name.endswith(".new"):
                        os.remove(os.path.join(folder, name))
            except OSError as error:
                raise BadSettings(f"the spool {folder} can't be used: {error.strerror}") from None
            self._prune()

    def add(self, kept: Kept) -> None:
        """Keeps a report in place of an earlier one of the same execution."""
        if self._folder is not None and time.monotonic() - self._looked >= LOOK_AGAIN or self._bytes > BYTES:
            self._prune()
        if self._folder is None or not self._write(kept):
            self._remember(kept)

    def keys(self) -> list[Key]:
        """All that wait, by entry number."""
        return sorted({*self._memory, *self._on_disk()})

    def get(self, key: Key) -> Kept | None:
        """None where it isn't there, or can't be read: such a file is removed."""
        if key in self._memory or self._folder is None:
            return self._memory.get(key)
        path = self._path(key)
        try:
            with open(path, encoding="utf-8") as file:
                found = json.load(file)
            return Kept(Report.of(found["report"]), int(found["from"]), bytes.fromhex(found["output"]))
        except FileNotFoundError:
            return None
        except (OSError, ValueError, KeyError, TypeError, BadLine) as error:
            log.error("the report %s can't be read, and is given up: %s", path, error)
            self._remove(path)
            return None

    def drop(self, kept: Kept) -> None:
        """A hub has this one. A later one of the same execution stays."""
        now = self.get(kept.key)
        if now is not None and now.report.refires == kept.report.refires and now.report.ended == kept.report.ended:
            if self._memory.pop(kept.key, None) is None and self._folder is not None:
                self._remove(self._path(kept.key))

    # -- on the disk

    def _path(self, key: Key) -> str:
        assert self._folder is not None
        return os.path.join(self._folder, f"{key[0]}-{key[1]}.json")

    def _on_disk(self) -> Iterator[Key]:
        """None where the folder can't be listed for the moment, as for want of descriptors: what is there waits."""
        try:
            names = os.listdir(self._folder) if self._folder is not None else []
        except OSError as error:
            self._say(f"reports in {self._folder} can't be listed, and wait", error)
            return
        for name in names:
            if (found := FILE.fullmatch(name)) is not None:
                yield int(found[1]), int(found[2])

    def _write(self, kept: Kept) -> bool:
        path = self._path(kept.key)
        data = json.dumps({"report": kept.report.members(), "from": kept.begin, "output": kept.output[-OUTPUT:].hex()}).encode()
        try:
            durable.write(path, data)
        except OSError as error:
            self._remove(f"{path}.new")
            self._say(f"reports can't be kept in {self._folder}, and stay in memory", error)
            return False
        self._bytes += len(data)
        self._memory.pop(kept.key, None)
        return True

    def _say(self, text: str, error: OSError) -> None:
        if time.monotonic() - self._said >= SAY_AGAIN:
            self._said = time.monotonic()
            log.error("%s: %s", text, error.strerror)

    def _remove(self, path: str) -> None:
        try:
            size = os.path.getsize(path)
            os.remove(path)
            self._bytes -= size
        except OSError:
            pass

    def _prune(self) -> None:
        """Gives up what is too old, and the oldest where all of them have too many bytes."""
        self._looked = time.monotonic()
        found = []
        for key in self._on_disk():
            try:
                status = os.stat(self._path(key))
            except OSError:
                continue
            found.append((status.st_mtime, status.st_size, key))
        self._bytes = sum(size for _, size, _ in found)
        oldest, given_up = time.time() - DAYS * 86400, 0
        for at, _, key in sorted(found):
            if at >= oldest and self._bytes <= BYTES:
                break
            self._remove(self._path(key))
            given_up += 1
        if given_up:
            log.error("%d reports are given up: they are older than %d days, or all of them have more than %d bytes", given_up, DAYS, BYTES)

    # -- in memory

    def _remember(self, kept: Kept) -> None:
        self._memory.pop(kept.key, None)
        while len(self._memory) >= IN_MEMORY:
            del self._memory[next(iter(self._memory))]
        self._memory[kept.key] = kept
        with_output = [key for key, one in self._memory.items() if one.output]
        for key in with_output[: max(0, len(with_output) - WITH_OUTPUT)]:
            one = self._memory[key]
            self._memory[key] = Kept(one.report, one.begin + len(one.output), b"")


def object_of(kept: Kept, most: int) -> dict[str, object]:
    """A report as an object of a line, with its output if that has no more than so many bytes."""
    output = {"from": kept.begin, "data": text_of(kept.output)} if 0 < len(kept.output) <= most else {}
    return {"report": kept.report.members(), **output}
