"""A hub's history on a second machine: all of it, what is new, and what comes of it where that machine takes over."""
import io
import json
import logging
import os
import sqlite3
import unittest
from unittest import mock

from kemtrua import backups, standby
from kemtrua.history import shipping
from kemtrua.history.questions import Filter, Object, Questions
from kemtrua.history.schema import FILE, FORMAT, TABLES, opened
from kemtrua.history.shipping import BadPart, Kept, Shipped
from kemtrua.history.story import Story
from tests.helpers import PROGRAM, now
from tests.test_alerts import WithRecorder
from tests.test_backups import WithHome


def setUpModule() -> None:
    logging.disable(logging.CRITICAL)


def tearDownModule() -> None:
    logging.disable(logging.NOTSET)


def content(folder: str) -> dict[str, list[tuple[object, ...]]]:
    """All that a standby is to have of a history."""
    connection = opened(folder, make=False)
    try:
        found = {}
        for table, columns in shipping.TABLES.items():
            if table != shipping.WAITS:
                where = "WHERE fired IS NOT NULL" if table == "executions" else ""
                found[table] = [tuple(row) for row in connection.execute(f"SELECT {', '.join(columns)} FROM {table} {where} ORDER BY 1, 2")]
        return found
    finally:
        connection.close()


class WithStandby(WithRecorder):
    def setUp(self) -> None:
        super().setUp()
        self.to = os.path.join(self.folder, "standby")
        os.mkdir(self.to)
        self.shipped, self.kept = Shipped(self.folder), Kept(self.to)
        self.addCleanup(self.kept.close)


class Parts(WithStandby):
    def ship(self) -> int:
        """Ships all that is new, and says how many executions these were."""
        self.settle()
        count = 0
        while (part := self.shipped.more()) is not None:
            count += len(shipping.rows_of(part)["executions"])
            self.kept.take(part)
        return count

    def test_all_of_it_and_then_what_is_new(self) -> None:
        self.trigger()
        for number in range(5):
            self.execution(now(), now() + 5, ok=number != 3, output=b"\x00out %d" % number)
        self.execution(now(), None)
        self.recorder.said(now(), "user root", {"do": "pause_trigger", "name": "t"}, "ok")
        self.recorder.load(now(), "A", 4, 1, 0)
        self.assertEqual(self.ship(), 6)
        self.assertEqual(content(self.to), content(self.folder))
        self.assertIsNone(self.shipped.more())
        self.answered({"do": "complete", "node": "A", "entry": 6}, "completed 6", 1)
        self.execution(now(), now() + 5, ok=False)
        self.recorder.piece("A", (1, 2), 4, b"more", None)
        self.assertEqual(self.ship(), 3)
        self.assertEqual(content(self.to), content(self.folder))
        self.assertIn("user root", [row[2] for row in content(self.to)["audit"]])

    def test_many_of_one_moment_come_in_parts(self) -> None:
        self.trigger()
        for _ in range(12):
            self.execution(now(), now() + 5, output=b"x" * 100)
            self.recorder.said(now(), "user root", {"do": "pause_trigger", "name": "t" * 100}, "ok")
        with mock.patch.object(shipping, "ROWS", 5), mock.patch.object(shipping, "OUTPUTS", 250), mock.patch.object(shipping, "LONG", 300):
            self.assertEqual(self.ship(), 12)
            self.assertEqual(len(content(self.to)["audit"]), len(content(self.folder)["audit"]))
        self.assertEqual(content(self.to), content(self.folder))

    def test_what_was_given_back_is_not_shipped(self) -> None:
        self.trigger()
        self.answered({"do": "acquire", "node": "A", "no_later": 5}, "acquired 1 DEFAULT/t 5", 1)
        self.assertEqual(self.ship(), 0)
        self.answered({"do": "release", "node": "A", "entry": 1}, "released 1", 1)
        self.assertEqual(self.ship(), 0)

    def test_events_that_were_told_wait_no_more(self) -> None:
        self.trigger()
        self.execution(now(), now() + 5, ok=False)
        self.execution(now(), now() + 5, ok=False)
        self.ship()
        with Questions(self.to) as asked:
            self.assertEqual((asked.waiting("failure") or (0,))[0], 2)
        self.recorder.do(lambda it: it.connection.execute("UPDATE events SET waits = 0 WHERE id = 1")).result(20)
        self.ship()
        with Questions(self.to) as asked:
            self.assertEqual((asked.waiting("failure") or (0,))[0], 1)

    def test_a_database_that_was_made_anew_is_shipped_anew(self) -> None:
        self.trigger()
        self.execution(now(), now() + 5)
        self.assertEqual(self.ship(), 1)
        self.assertEqual(self.ship(), 0)
        self.recorder.do(lambda it: it.connection.execute("UPDATE meta SET value = 'another' WHERE name = 'id'")).result(20)
        self.assertEqual(self.ship(), 1)

    def test_what_is_no_part(self) -> None:
        for bad in (b"", b"[]", b"7", b'{"executions":[[1]]}', b'{"triggers":[]}', b'{"outputs":[[1,2,3,"!",5]]}',
                    b'{"audit":[[1,2,3,[4],5]]}', b'{"waits":7}', b"\xff"):
            with self.assertRaises(BadPart, msg=bad):
                self.kept.take(bad)
        self.assertEqual({table: rows for table, rows in content(self.to).items() if rows}, {})


class OfHubs(WithStandby):
    """A hub that stands by asks the one that leads, and goes on with each database where it was."""

    def take(self) -> int:
        """Takes all that is new, and says how many executions these were."""
        self.settle()
        count = 0
        while objects := shipping.told_in(self.folder, self.kept.positions(), self.kept.since()):
            found, position = shipping.heard(json.loads(json.dumps(objects)))
            count += len(shipping.checked(found)["executions"])
            self.kept.take_rows(found, position)
        return count

    def note(self, name: str, value: object) -> None:
        self.recorder.do(lambda it: it.connection.execute("UPDATE meta SET value = ? WHERE name = ?", (value, name))).result(20)

    def test_it_goes_on_where_it_was(self) -> None:
        self.trigger()
        for _ in range(12):
            self.execution(now(), now() + 5, output=b"x" * 100)
        with mock.patch.object(shipping, "FOR_A_HUB", shipping.Sizes(5, 250, 300)), mock.patch.object(shipping, "PIECE", 64):
            self.assertEqual(self.take(), 12)
        self.assertEqual(content(self.to), content(self.folder))
        self.execution(now(), None)
        self.assertEqual((self.take(), self.take()), (1, 0))
        self.note("id", "another")  # (as the database of another hub, which has the same)
        self.execution(now(), now() + 5)
        self.assertEqual((self.take(), self.take()), (14, 0))  # (all are of the last days)
        self.kept._connection.execute("UPDATE meta SET value = ? WHERE name = 'whole'", (str(now() + shipping.REPORTED_WITHIN + 60_000),))
        self.note("id", "a third one")
        self.assertEqual(self.take(), 2)  # (the one that executes, and what came later)
        self.assertEqual(content(self.to), content(self.folder))

    def test_what_is_known_up_to_where_comes_last(self) -> None:
        self.trigger()
        for _ in range(6):
            self.execution(now(), now() + 5)
        self.settle()
        with mock.patch.object(shipping, "FOR_A_HUB", shipping.Sizes(5, 2**19, 2**19)):
            for is_whole in (False, True):
                found, position = shipping.heard(shipping.told_in(self.folder, self.kept.positions(), 0))
                self.assertEqual(("stores" in shipping.checked(found), position.owes), (is_whole, not is_whole))
                self.kept.take_rows(found, position)

    def test_a_report_that_only_one_of_them_has_stays(self) -> None:
        self.trigger()
        entry = self.execution(now(), now() + 5, ok=False)
        self.take()
        self.recorder.do(lambda it: it.connection.execute("UPDATE executions SET state = 'ended', ok = NULL, status = NULL, told = NULL, changed = 99")).result(20)
        self.assertEqual(self.take(), 1)
        with Questions(self.to) as asked:
            found = asked.execution(entry, 1)
        assert found is not None
        self.assertEqual((found["state"], found["status"]), ("failed", 1))

    def test_what_is_no_position(self) -> None:
        for bad in (7, {"id": 1, "more": 2}, {"execution": [1]}, {"rows": 5}, {"waits": 1}):
            with self.assertRaises(BadPart, msg=bad):
                shipping.told_in(self.folder, [bad], 0)
        for objects in ([], [{}], [{"position": {}}, {"data": "!"}], [{"position": {}}, {"data": "AAAA"}]):
            with self.assertRaises(BadPart, msg=objects):
                shipping.heard(objects)


class Formats(WithRecorder):
    def test_one_of_the_format_before_is_brought_up_to_date(self) -> None:
        old = os.path.join(self.folder, "old")
        os.mkdir(old)
        connection = sqlite3.connect(os.path.join(old, FILE), isolation_level=None)
        before = TABLES.replace("changed INTEGER NOT NULL DEFAULT 0,", "").replace("CREATE INDEX by_change ON executions (changed);", "")
        row = "INSERT INTO executions (generation, entry, trigger, node, job, fired, state) VALUES (1, 7, 't', 'A', 'j', 5, 'done')"
        connection.executescript(f"{before} PRAGMA user_version=1; {row}")
        connection.close()
        with Questions(old) as asked:  # (it is read as it is)
            self.assertEqual([one["entry"] for one in asked.executions(Filter())], [7])
        self.assertIsNone(Shipped(old).more())
        connection = opened(old)
        self.assertEqual((connection.execute("PRAGMA user_version").fetchone()[0], len(Story(connection, 1, now).open)), (FORMAT, 0))
        connection.close()
        part = Shipped(old).more()
        assert part is not None
        self.assertEqual([row[1] for row in shipping.rows_of(part)["executions"]], [7])


class Streams(WithHome):
    def fill(self, folder: str) -> None:
        """A history in a folder, of one execution."""
        connection = opened(folder)
        connection.execute("INSERT INTO executions (generation, entry, trigger, node, job, fired, ended, state, changed) "
                           "VALUES (1, 7, 't', 'A', 'j', ?, ?, 'done', 1)", (now() - 5, now()))
        connection.close()

    def found(self, folder: str) -> list[Object]:
        with Questions(folder) as asked:
            return asked.executions(Filter())

    def shipped(self) -> bytes:
        out, rounds = io.BytesIO(), [1, 1]
        with mock.patch.object(standby, "LOOK_AGAIN", 0.0):
            standby.ship(self.home, out.write, lambda: bool(rounds and rounds.pop()))
        return out.getvalue()

    def test_it_goes_along_with_the_stores(self) -> None:
        self.new_home("a")
        self.fill(self.home)
        data, to = self.shipped(), f"{self.folder}/standby"
        standby.Receiver(to).receive(io.BytesIO(data))
        self.assertEqual(self.found(to), self.found(self.home))
        bad = data.replace(b'"executions":[[', b'"executions":[["x",', 1).replace(b"history ", b"history 1", 1)
        with self.assertRaises(standby.Broken):
            standby.Receiver(to).receive(io.BytesIO(bad))

    def test_it_is_put_in_place_where_the_second_machine_takes_over(self) -> None:
        self.new_home("a")
        self.fill(self.home)
        to, other = f"{self.folder}/standby", f"{self.folder}/other"
        standby.Receiver(to).receive(io.BytesIO(self.shipped()))
        os.mkdir(other)
        self.fill(other)
        connection = opened(other)
        connection.execute("DELETE FROM executions")
        connection.close()
        backups.bring_history(to, other)
        self.assertEqual(self.found(other), self.found(self.home))
        self.assertTrue(os.path.exists(f"{other}/{FILE}{shipping.BEFORE}"))
        connection = opened(other)
        self.assertEqual(connection.execute("PRAGMA journal_mode").fetchone()[0], "wal")
        connection.close()

    def test_a_backup_leaves_the_history_alone(self) -> None:
        self.new_home("a")
        self.fill(self.home)
        to = f"{self.folder}/backup"
        backups.make(self.home, to, PROGRAM)
        backups.restore(to, self.home, PROGRAM)
        self.assertEqual([one["entry"] for one in self.found(self.home)], [7])


if __name__ == "__main__":
    unittest.main()
