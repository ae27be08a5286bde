"""What a store's own history says, by `qz_sched history` on a copy of its files."""
from __future__ import annotations

import json
import os
import re
import shutil
import subprocess
import tempfile
from collections.abc import Generator
from contextlib import closing
from typing import IO, TYPE_CHECKING

from .. import clock, journal, logs, rows
from ..errors import KemtruaError
from ..program import STORE_FILES, call, cannot_run
from .places import Place, follows_on_another, knows_former
from .story import is_of_client
from .transactions import NotTold, Transaction, told

if TYPE_CHECKING:
    from .writer import Writer

log = logs.logger("kemtrua.history")

COPY = "history-copy-"  # how the folder of a copy begins
AT_ONCE = 1000  # changes that are written at once

BAD_WORDS = 1  # the exit status of a program that has no `history`
_BEGINS = re.compile(r"^qz: begins at (\d+)$", re.MULTILINE)


class NoWord(KemtruaError):
    """The program has no word `history`."""


class Copy:
    """A copy of a store, which is removed by `close`. It is made while the program works: a file only grows at its end, and a commit in the middle isn't in it."""

    def __init__(self, stores: str, program: str, inside: str | None = None):
        self.name, self._program = os.path.basename(os.path.realpath(stores)), program
        self._folder = tempfile.mkdtemp(prefix=COPY, dir=inside)
        try:
            for name in STORE_FILES:
                shutil.copy(os.path.join(stores, name), self._folder)
        except BaseException:
            self.close()
            raise

    def close(self) -> None:
        shutil.rmtree(self._folder, ignore_errors=True)

    @property
    def is_compacted(self) -> bool:
        """Whether the store began with what another one had."""
        return journal.begins_with_snapshot(os.path.join(self._folder, STORE_FILES[0]))

    def set_back(self) -> bool:
        """Has the history begin sooner: at the snapshot before, or where the store began. False where it begins there already."""
        return journal.set_back(os.path.join(self._folder, STORE_FILES[0]))

    def listed(self) -> list[rows.Row]:
        return [rows.row_of(line) for line in call(self._program, self._folder, "list").splitlines()]

    def history(self, after: int) -> Reading:
        """The transactions above this number, as far back as the store tells."""
        return Reading(self._program, self._folder, after)


class Reading:
    """One call of `history`. `begins` is the first number that it can tell, once all was read; None where that is no more than what was asked for."""

    def __init__(self, program: str, folder: str, after: int):
        self.begins: int | None = None
        self._said = tempfile.TemporaryFile()
        try:
            self._process = subprocess.Popen([program, "history", str(after)], cwd=folder, stdin=subprocess.DEVNULL, stdout=subprocess.PIPE,
                                             stderr=self._said, start_new_session=True)
        except OSError as error:
            self._said.close()
            raise cannot_run(program, folder, error) from error

    def __iter__(self) -> Generator[Transaction, None, None]:
        """Raises NoWord, and NotTold where the program ends otherwise than it should. Where it is closed before its end, the call is ended."""
        out: IO[bytes] | None = self._process.stdout
        assert out is not None
        try:
            for line in out:
                yield told(line)
            status = self._process.wait()
            self._said.seek(0)
            said = self._said.read(65536).decode(errors="replace").strip()
        finally:
            self._process.kill()
            self._process.wait()
            out.close()
            self._said.close()
        if status == BAD_WORDS:
            raise NoWord("the program has no word `history`: what isn't in the database stays missing")
        if status:
            raise NotTold(f"qz_sched history ended with status {status}: {said}")
        found = _BEGINS.search(said)
        self.begins = int(found[1]) if found else None


def remove_copies(inside: str) -> None:
    """Removes the copies that a hub which was killed has left in a folder."""
    for name in os.listdir(inside):
        if name.startswith(COPY):
            shutil.rmtree(os.path.join(inside, name), ignore_errors=True)


class Filling:
    """Takes what a copy of a store tells and the database doesn't know. It works in the writer's thread, within its open transaction."""

    def __init__(self, writer: Writer, copy: Copy):
        self._writer, self._copy, self._story = writer, copy, writer.story

    def run(self, mark: int, closes: bool = False) -> bool:
        """Whether all is known then that came before the copy was made. The writer gave `mark` before that. With `closes` nothing more
        comes to the store."""
        writer = self._writer
        if writer.place.store != self._copy.name:
            writer.place = Place.read(writer.connection, writer.generation, self._copy.name)
        writer.place.closed = False
        try:
            self._fill(closes)
        except NoWord as error:
            writer.has_word = False
            writer.say("word", str(error))
            self._story.take_listed(self._copy.listed(), is_whole=True)
        except NotTold as error:
            writer.say("told", str(error))
            return False
        writer.filled(mark)
        writer.place.closed = closes and writer.has_word
        return True

    def _fill(self, closes: bool) -> None:
        writer, place = self._writer, self._writer.place
        known, restored = place.last, place.is_new and follows_on_another(writer.connection, writer.generation)
        begins, last = self._read(restored)
        has_gap = begins > known + 1 and not restored
        if has_gap:
            self._tell_gap(f"what the store {place.store} did after its transaction {known} and before {begins} isn't in its history any more")
        elif place.is_new and not restored and self._copy.is_compacted and not knows_former(writer.connection, writer.generation, place.store):
            self._tell_gap(f"what the team did before the store {place.store} was made isn't in that store's history")
        if restored:
            self._story.take_restored()
        place.last = place.exact = max(place.last, last)
        if has_gap or place.is_new or not closes and self._was_shipped():
            self._story.take_listed(self._copy.listed(), is_whole=last >= known)
        place.is_new = False

    def _was_shipped(self) -> bool:
        """Whether the database came from another hub since the last look: without jobs, triggers and what is acquired."""
        return self._writer.connection.execute("DELETE FROM meta WHERE name = 'shipped'").rowcount > 0

    def _tell_gap(self, what: str) -> None:
        self._story.take_event(clock.now(), "gap", f"{what}: it is missing")
        log.warning("%s: it is missing", what)

    def _read(self, restored: bool) -> tuple[int, int]:
        """Takes what is told. Gives the first number that can be told, and the last one."""
        while (found := self._read_once(restored)) is None:
            pass
        return found

    def _read_once(self, restored: bool) -> tuple[int, int] | None:
        """The same; None where it has to be read anew. Then the call that told it has ended: two at once can't open the copy."""
        place, begins, last = self._writer.place, 1, 0
        reading = self._copy.history(max(place.exact - 1, 0))
        with closing(iter(reading)) as told:
            for it in told:
                assert it.number is not None
                if not last:
                    if self._begins_late(it.number, restored):
                        return None
                    if it.number == place.exact and place.reply != it.reply:
                        log.warning("the database doesn't fit the store %s: what that tells is taken anew", place.store)
                        place.last = place.exact = 0
                        return None
                    begins = it.number if it.number > max(place.exact, 1) else 1
                last = it.number
                if restored:
                    place.last, place.exact, place.reply = last, last, it.reply
                else:
                    self._take(it)
        if reading.begins is not None:
            if not last and self._begins_late(reading.begins, restored):
                return None
            begins, last = reading.begins, max(last, reading.begins - 1)
        return begins, last

    def _begins_late(self, begins: int, restored: bool) -> bool:
        """Whether a snapshot hid what isn't known with the store's own moments, and hides it no more. One is made where a hub is killed,
        too, since its program ends then."""
        return begins > self._writer.place.exact + 1 and not restored and self._copy.set_back()

    def _take(self, it: Transaction) -> None:
        place, story = self._writer.place, self._story
        assert it.number is not None
        if it.number <= place.exact:
            return
        if it.number <= place.last and not story.correct(it):
            log.warning("the transactions of the store %s were counted wrongly from %d on: they are taken anew", place.store, it.number)
            place.last = it.number - 1
        if it.number > place.last:
            story.apply(it)
            if is_of_client(it):
                story.take_said(it.at, None, line_of(it), it.reply)
            place.last = it.number
        place.exact, place.reply = it.number, it.reply
        if story.size >= AT_ONCE:
            self._writer.commit()


def line_of(it: Transaction) -> str:
    return json.dumps(it.line, separators=(",", ":"))
