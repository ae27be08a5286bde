"""Troubles that come seldom, each made by hand: whoever asks hears of it, nothing leaks, and nothing is lost. None of it needs the program."""
from __future__ import annotations

import asyncio
import contextlib
import io
import logging
import os
import sqlite3
import subprocess
import sys
import threading
import unittest
from dataclasses import replace
from unittest import mock

from kemtrua import BadSettings, Tls
from kemtrua.cli import client, hub
from kemtrua.errors import Unanswered
from kemtrua.etcdlink import Endpoint, Link
from kemtrua.executions import Executions
from kemtrua.hub import Hub, HubSettings
from kemtrua.hub.asking import Asking
from kemtrua.hub.lines import Lines
from kemtrua.hub.rights import Door, Identity, Rights
from kemtrua.hub.telling import answers_in
from kemtrua.hub.visitor import Slot
from kemtrua.history.questions import Questions
from kemtrua.history.schema import NoHistory, opened
from kemtrua.membership import Membership
from kemtrua.several.taking import Taking
from kemtrua.spool import Kept, Spool
from kemtrua.values import name
from kemtrua_web.definitions import Definitions
from kemtrua_web.safety import Origins
from tests.helpers import ENVIRONMENT, WithFolder, remove
from tests.test_reports import report


def setUpModule() -> None:
    logging.disable(logging.CRITICAL)


def tearDownModule() -> None:
    logging.disable(logging.NOTSET)


class Answers(WithFolder):
    def test_a_line_that_meets_what_nobody_foresaw(self) -> None:
        """Before, its connection waited for the answer as long as it lasted."""
        said: list[str] = []
        visitor = mock.Mock(answer=lambda slot, text: said.append(text))

        async def work() -> str:
            raise OSError(5, "Input/output error")

        async def run() -> None:
            lines = Lines(Asking(self.folder, "qz_sched", mock.Mock()), Rights(), lambda error: None)
            lines._later(visitor, Slot(), work())
            await asyncio.gather(*lines._tasks)

        asyncio.run(run())
        self.assertEqual(([it[:10] for it in said], visitor.is_busy), (["hub failed"], False))

    def test_a_history_that_cannot_be_read(self) -> None:
        opened(self.folder).close()
        with mock.patch.object(Questions, "executions", side_effect=sqlite3.OperationalError("disk I/O error")), self.assertRaises(NoHistory) as raised:
            answers_in(self.folder, {"do": "history"})
        self.assertIn("disk I/O error", str(raised.exception))


class Connections(unittest.TestCase):
    def test_one_on_which_a_hub_says_nothing_is_closed(self) -> None:
        """Before, each try left a thread and three descriptors, as long as the hub hung."""
        silent = [mock.Mock(is_broken=False, watch_in_turn=mock.Mock(side_effect=Unanswered("no answer"))) for _ in range(2)]
        good = mock.Mock(is_broken=False)
        members = Membership("N", 1000, mock.Mock(side_effect=[*silent, good]), lambda: None)
        with mock.patch.object(members, "_rest"):
            members._reach()
        self.assertEqual([it.close.call_count for it in (*silent, good)], [1, 1, 0])
        self.assertIs(members.scheduler, good)


class Spools(WithFolder):
    def test_a_folder_that_cannot_be_listed(self) -> None:
        """Before, want of a descriptor ended the thread that tells reports, for as long as its node lived, and lost the report."""
        spool = Spool(self.folder)
        spool.add(Kept(report(1), 0, b""))
        spool._looked = float("-inf")  # (it looks at what is too old)
        with mock.patch("os.listdir", side_effect=OSError(24, "Too many open files")), mock.patch("builtins.open", side_effect=OSError(24, "Too many open files")):
            spool.add(Kept(report(2), 0, b""))
            self.assertEqual(spool.keys(), [(1, 2)])
        self.assertEqual(spool.keys(), [(1, 1), (1, 2)])


class Counts(unittest.TestCase):
    def test_an_execution_that_ends_while_all_are_counted(self) -> None:
        """Before, that ended the node, if it came in the midst of a count by another thread."""
        executions = Executions({}, mock.Mock(), 0, lambda: None, lambda error: None)

        class Ending:
            @property
            def left(self) -> bool:
                executions._running.pop(1, None)
                return False

        executions._running = {number: Ending() for number in (1, 2)}  # type: ignore[dict-item,misc]
        self.assertEqual(executions.left_open, 0)


class Names(WithFolder):
    def test_a_join_that_is_no_step_takes_no_name(self) -> None:
        """Before, the node of that name couldn't join while the connection lasted, and one connection could take any number of names."""
        lines = Lines(Asking(self.folder, "qz_sched", mock.Mock()), Rights(), lambda error: None)
        said: list[str] = []
        visitor = mock.Mock(node=None, who=Identity(Door.NODES, "7"), answer=lambda slot, text: said.append(text))
        lines.said(visitor, b'{"do":"join","node":"north","interval":0}')
        self.assertEqual([it[:12] for it in said], ["hub bad-line"])
        self.assertFalse(lines.speakers.has("north"))


class Words(WithFolder):
    def said(self, command: object, *words: str) -> str:
        """What a command says that is refused."""
        with contextlib.redirect_stderr(io.StringIO()) as said:
            self.assertEqual(command.main(list(words)), 1)  # type: ignore[attr-defined]
        return said.getvalue()

    def test_bad_words_are_told(self) -> None:
        """Before, each ended with a traceback, or as if it were right."""
        nowhere = f"unix:{self.folder}/none.sock"
        for words, text in ((("--hub", "tls:h:\u00b2", "list"), "no address"), (("--hub", nowhere, "log", "\u00b2"), "no entry number"),
                            (("--hub", nowhere, "history", "--limit", "-5"), "1 or more"), (("--hub", nowhere, "audit", "--limit", "0"), "1 or more"),
                            (("--hub", nowhere, "history", "--job", "\udcff"), "no hub answers")):
            with self.subTest(words):
                self.assertIn(text, self.said(client, *words))
        self.assertIn("--settings", self.said(hub, self.folder, "--check"))
        self.assertIn("--node a:\u00b2", self.said(hub, self.folder, "--node", "a:\u00b2"))

    def test_a_name_that_is_no_utf8(self) -> None:
        self.assertEqual([str(it) for it in name("\udcff", "name")], ["name: '\\udcff' isn't UTF-8; allowed is a name of 1 to 200 bytes of that"])

    def test_what_the_system_refuses_is_told(self) -> None:
        with mock.patch("kemtrua.cli.work.files.read", side_effect=OSError(5, "Input/output error", "/x")):
            self.assertEqual(self.said(client, "check", "x"), "kemtrua: /x: Input/output error\n")

    def test_a_reader_that_has_enough(self) -> None:
        """Before, the interpreter complained of it at its end, with a status of its own."""
        with open(f"{self.folder}/bad", "w") as file:
            file.write("{}x\n")
        command = [sys.executable, "-m", "kemtrua.cli.client", "check", f"{self.folder}/bad"]
        buffered = {name: value for name, value in ENVIRONMENT.items() if name != "PYTHONUNBUFFERED"}
        with subprocess.Popen(command, stdout=subprocess.PIPE, stderr=subprocess.PIPE, env=buffered) as running:
            assert running.stdout is not None and running.stderr is not None
            running.stdout.close()
            self.assertEqual((running.stderr.read(), running.wait()), (b"", 1))


class Certificates(WithFolder):
    def test_one_that_cannot_be_read_at_a_look(self) -> None:
        """Before, the hub looked at none from then on, and said nothing of it."""
        async def run() -> None:
            made = Hub(HubSettings(self.folder))
            made.settings = replace(made.settings, tls=Tls("c", "k", "a"))
            looks = mock.Mock(side_effect=[BadSettings("c can't be read"), None, asyncio.CancelledError])
            with mock.patch("kemtrua.hub.server.warn_of", looks), mock.patch("kemtrua.hub.server.DAY", 0), self.assertRaises(asyncio.CancelledError):
                await made._look_at_certificates()
            self.assertEqual(looks.call_count, 3)

        asyncio.run(run())


class Known(WithFolder):
    def test_no_more_definitions_than_so_many(self) -> None:
        """Before, the page kept those of each trigger that ever was, as long as it ran."""
        known = Definitions(self.folder, "qz_sched")
        with mock.patch("kemtrua_web.definitions.MOST", 3):
            for number in (1, 2, 3, 1, 4):
                known._take(f'{{"do":"add_trigger","trigger":{{"name":"t{number}"}}}}')
        self.assertEqual([key for key in ("DEFAULT/t1", "DEFAULT/t2", "DEFAULT/t3", "DEFAULT/t4") if known.trigger(key) is not None],
                         ["DEFAULT/t2", "DEFAULT/t3", "DEFAULT/t4"])

    def test_a_history_that_was_made_anew(self) -> None:
        """Before, the page learnt nothing more until the new database had as many lines as the one before."""
        known = Definitions(self.folder, "qz_sched")
        for numbers in ((1, 2, 3), (4,)):
            with contextlib.closing(opened(self.folder)) as database:
                for number in numbers:
                    line = f'{{"do":"add_trigger","trigger":{{"name":"t{number}"}}}}'
                    database.execute("INSERT INTO audit (at, who, line, reply) VALUES (1, 'user root', ?, 'ok')", (line,))
            known.learn()
            remove(self.folder)
            os.mkdir(self.folder)
        self.assertIsNotNone(known.trigger("DEFAULT/t4"))


class Bodies(unittest.TestCase):
    def test_one_in_chunks_is_bounded_as_any_other(self) -> None:
        async def run(head: bytes) -> None:
            reader = asyncio.StreamReader()
            reader.feed_data(b"HTTP/1.1 200 OK\r\nTransfer-Encoding: chunked\r\n\r\n" + head)
            reader.feed_eof()
            await Link(Endpoint("localhost", 1, False), reader, mock.Mock(drain=mock.AsyncMock())).ask("/", b"")

        for head in (b"40000000\r\n", b"3\r\nabc\r\n" * 3 + b"0\r\n\r\n"):
            with mock.patch("kemtrua.etcdlink.LONGEST", 8), self.assertRaises(ValueError) as raised:
                asyncio.run(run(head))
            self.assertRegex(str(raised.exception), "a (chunk|body) of ")

    def test_an_origin_that_is_none(self) -> None:
        with self.assertRaises(BadSettings):
            Origins.of(["http://["])


class Ends(WithFolder):
    def test_no_leader_that_hangs_is_waited_for(self) -> None:
        """Before, a hub that stood by ended up to five minutes later."""
        asked, cut = threading.Event(), threading.Event()
        leader = mock.MagicMock(cut=cut.set)
        leader.__enter__.return_value = leader

        def rows(do: str, **members: object) -> None:
            asked.set()
            cut.wait(20.0)
            raise Unanswered(do)

        leader.rows = rows

        async def run() -> None:
            taking = Taking(self.folder, None, lambda: "unix:/nowhere")
            work = asyncio.create_task(taking.run())
            await asyncio.to_thread(asked.wait)
            work.cancel()
            await taking.end()

        with mock.patch("kemtrua.several.taking.Connection", return_value=leader), mock.patch("kemtrua.several.taking.EACH", 0.0):
            asyncio.run(run())
        self.assertTrue(cut.is_set())
