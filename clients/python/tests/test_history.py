"""A hub's history beside the store's own: after kills, without the database, with a program that doesn't tell, and with one that is wrong."""
import json
import os
import shutil
import sqlite3
import unittest

from kemtrua import Connection
from kemtrua.cli import client
from kemtrua.compaction import compact
from kemtrua.folder import Folder
from kemtrua.history.filling import Copy
from kemtrua.history.questions import Filter, Object, Questions
from kemtrua.history.schema import FILE
from kemtrua.team import Team
from tests.helpers import IS_STAND_IN, PROGRAM, HubProcess, WithFolder, job, now, once, wait_until
from tests.stand_in_files import Journal

FIVE = ("entry", "trigger", "node", "scheduled", "fired")


def stores_of(folder: str) -> str:
    """Where a hub's folder has its store files."""
    current = os.path.join(folder, "current")
    return current if os.path.islink(current) else folder


def told(folder: str) -> dict[int, Object]:
    """The executions that the store's own history tells, folded here anew, from beginning to end."""
    copy = Copy(stores_of(folder), PROGRAM)
    try:
        found: dict[int, Object] = {}
        acquired: dict[int, str] = {}
        for it in copy.history(0):
            words = it.reply.split()
            if words[0] == "acquired" and words[1] != "none":
                acquired |= {int(entry): trigger for entry, trigger in zip(words[1::3], words[2::3])}
            elif words[0] == "fired":
                entry = int(words[1])
                found[entry] = {"entry": entry, "trigger": acquired.get(entry, ""), "node": it.line["node"], "scheduled": int(words[3]), "fired": int(words[5]), "ended": None}
            elif words[0] == "completed" and int(words[1]) in found:
                found[int(words[1])]["ended"] = it.at
            elif it.do in ("join", "recover"):
                node = it.line["failed" if it.do == "recover" else "node"]
                for one in found.values():
                    if one["node"] == node and one["ended"] is None:
                        one["ended"] = it.at
        return found
    finally:
        copy.close()


def recorded(folder: str) -> dict[int, Object]:
    with Questions(folder) as asked:
        return {int(str(one["entry"])): one for one in asked.executions(Filter())}


def snapshot(folder: str) -> None:
    """Has the stand-in make a snapshot, as the program does where a hub is killed: its history begins behind it then."""
    with open(os.path.join(stores_of(folder), "qz-triggers.store"), "r+b") as file:
        Journal(file).checkpoint()


class WithHistory(WithFolder):
    def work(self, one: Connection, node: str, firings: int, leaves_open: bool = False) -> None:
        """Makes a node fire so many times a trigger that is always due; the last one may stay open."""
        for number in range(firings):
            entry = one.acquire(node, now()).triggers[0].entry  # type: ignore[attr-defined]
            one.fire(node, entry)
            if number + 1 < firings or not leaves_open:
                one.complete(node, entry)

    def begun(self, hub: HubProcess) -> Connection:
        one = hub.connect()
        one.ask("add_job", job=job(requests_recovery=True, durable=True))
        one.ask("add_trigger", trigger={"name": "t", "job": "j", "kind": "simple", "start": now() - 30000, "interval": 1, "count": -1, "misfire": -1})
        one.ask("join", node="A")
        return one

    def agrees(self, within: float = 30.0) -> None:
        """The database says of each execution what the store says."""
        wanted = told(self.folder)

        def holds() -> bool:
            found = recorded(self.folder)
            return wanted == {entry: {name: found[entry][name] for name in (*FIVE, "ended")} for entry in wanted if entry in found}

        try:
            wait_until(holds, within)
        except AssertionError:
            found = recorded(self.folder)
            self.assertEqual(wanted, {entry: {name: one[name] for name in (*FIVE, "ended")} for entry, one in found.items()})
            raise

    def remove_database(self) -> None:
        for name in (FILE, f"{FILE}-wal", f"{FILE}-shm"):
            if os.path.exists(os.path.join(self.folder, name)):
                os.remove(os.path.join(self.folder, name))

    def events(self, *kinds: str) -> list[Object]:
        with Questions(self.folder) as asked:
            return asked.events(kinds, 0)


class Agrees(WithHistory):
    def test_as_it_goes_and_after_an_end(self) -> None:
        hub = self.hub()
        with self.begun(hub) as one:
            self.work(one, "A", 5)
            wait_until(lambda: [found["state"] for found in one.rows("history")] == ["ended"] * 5)
            self.assertEqual([(found["entry"], found["state"], found["job"], found["class"]) for found in one.rows("history")][:2],
                             [(5, "ended", "DEFAULT/j", "ok"), (4, "ended", "DEFAULT/j", "ok")])
            self.work(one, "A", 1, leaves_open=True)
        hub.ended()
        self.agrees()  # (with the store's own moments, since the end waits for them)
        self.assertEqual([found["state"] for found in recorded(self.folder).values()], ["runs", *["ended"] * 5])

    def test_after_kills(self) -> None:
        hub = self.hub()
        one = self.begun(hub)
        for _ in range(3):
            self.work(one, "A", 7, leaves_open=True)
            hub.kill()
            one.close()
            hub = self.hub(make=False)
            one = hub.connect()
            self.agrees()
            one.ask("join", node="A")  # (whose executions are lost)
        one.close()
        hub.ended()
        self.agrees()
        self.assertEqual(len(self.events("lost")), 3)

    def test_without_its_database(self) -> None:
        hub = self.hub()
        with self.begun(hub) as one:
            self.work(one, "A", 5, leaves_open=True)
            wait_until(lambda: len(recorded(self.folder)) == 5)
            os.remove(os.path.join(self.folder, FILE))
            self.work(one, "A", 3)
            wait_until(lambda: os.path.exists(os.path.join(self.folder, FILE)))
            wait_until(lambda: len(one.rows("history")) == 8)
            hub.ended()
            self.agrees()

    @unittest.skipUnless(IS_STAND_IN, "it puts a snapshot into the stand-in's journal")
    def test_moments_are_the_stores_own_behind_a_snapshot_too(self) -> None:
        hub = self.hub()
        one = self.begun(hub)
        for number in (5, 10, 15):
            self.work(one, "A", 5, leaves_open=True)
            wait_until(lambda number=number: len(recorded(self.folder)) == number)  # type: ignore[misc]
            hub.kill()
            one.close()
            wanted = {entry: it["ended"] for entry, it in told(self.folder).items() if it["ended"] is not None}
            with sqlite3.connect(os.path.join(self.folder, FILE)) as connection:
                connection.execute("UPDATE executions SET ended = ended + 3 WHERE entry > ?", (number - 5,))  # (as its hub's clock had them)
            snapshot(self.folder)
            hub = self.hub(make=False)
            one = hub.connect()
            one.ask("resume", node="A", epoch=1)
            one.complete("A", number)
            wait_until(lambda number=number: recorded(self.folder)[number]["state"] == "ended")  # type: ignore[misc]
            found = recorded(self.folder)
            self.assertEqual({entry: found[entry]["ended"] for entry in wanted}, wanted)
        one.close()
        self.assertEqual(self.events("gap"), [])

    @unittest.skipUnless(IS_STAND_IN, "it puts snapshots into the stand-in's journal")
    def test_without_its_database_all_is_told_that_the_store_has(self) -> None:
        hub = self.hub()
        with self.begun(hub) as one:
            self.work(one, "A", 4)
            snapshot(self.folder)
            self.work(one, "A", 2, leaves_open=True)
        hub.ended()
        wanted = told(self.folder) | {entry: recorded(self.folder)[entry] for entry in range(1, 5)}
        self.remove_database()
        snapshot(self.folder)
        hub = self.hub(make=False)
        with hub.connect() as one:
            wait_until(lambda: len(one.rows("history")) == 6)
        hub.ended()
        found = recorded(self.folder)
        self.assertEqual([found[entry]["ended"] for entry in sorted(wanted)], [wanted[entry]["ended"] for entry in sorted(wanted)])
        self.assertEqual((found[6]["state"], self.events("gap")), ("runs", []))

    def test_without_its_database_what_former_stores_had_is_missing(self) -> None:
        hub = self.hub()
        with self.begun(hub) as one:
            self.work(one, "A", 4, leaves_open=True)
            one.compact()
        hub.ended()
        self.remove_database()
        hub = self.hub(make=False)
        with hub.connect() as one:
            one.ask("resume", node="A", epoch=1)
            self.work(one, "A", 2)
            wanted = [(6, "ended", "DEFAULT/j"), (5, "ended", "DEFAULT/j"), (4, "runs", "DEFAULT/j")]
            wait_until(lambda: [(row["entry"], row["state"], row["job"]) for row in one.rows("history")] == wanted)
            found = {row["entry"]: row for row in one.rows("history")}
            self.assertRegex(str(self.events("gap")[0]["text"]), r"before the store \S+ was made isn't in that store's history: it is missing")
            one.complete("A", 4)
            wait_until(lambda: one.rows("history", until=found[5]["fired"])[0]["state"] == "ended")

    def test_an_end_that_nobody_saw_is_missing(self) -> None:
        hub = self.hub()
        with self.begun(hub) as one:
            self.work(one, "A", 2, leaves_open=True)
        hub.ended()
        with self.store() as store:
            store.ask("resume", node="A", epoch=1)
            store.ask("complete", node="A", entry=2)
        folder = Folder(self.folder)
        folder.hold()
        compact(folder, PROGRAM, Team.read(self.folder), 0.0)  # type: ignore[arg-type]
        folder.let_go()
        for stores in folder.all_stores()[:-1]:
            shutil.rmtree(stores)
        hub = self.hub(make=False)
        hub.connect().close()
        wait_until(lambda: recorded(self.folder)[2]["state"] == "missing")
        self.assertIsNone(recorded(self.folder)[2]["ended"])
        self.assertIn("isn't there any more", str(self.events("gap")[0]["text"]))

    def test_a_wrong_count_is_mended(self) -> None:
        hub = self.hub()
        with self.begun(hub) as one:
            self.work(one, "A", 4)
        hub.ended()
        with sqlite3.connect(os.path.join(self.folder, FILE)) as connection:
            connection.execute("UPDATE stores SET last = last - 3, exact = exact - 3")  # (as of another store: the reply doesn't fit)
            connection.execute("DELETE FROM executions WHERE entry < 3")
        hub = self.hub(make=False)
        hub.connect().close()
        self.agrees()

    def test_a_spoiled_database_is_moved_away(self) -> None:
        hub = self.hub()
        with self.begun(hub) as one:
            self.work(one, "A", 2)
        hub.ended()
        with open(os.path.join(self.folder, FILE), "wb") as file:
            file.write(b"no database" * 1000)
        hub = self.hub(make=False)
        hub.connect().close()
        self.agrees()
        self.assertTrue(os.path.exists(os.path.join(self.folder, FILE + ".spoiled")))

    def test_one_that_cannot_be_written_keeps_nobody_waiting(self) -> None:
        hub = self.hub()
        with self.begun(hub) as one:
            self.work(one, "A", 2)
        hub.ended()
        other = sqlite3.connect(os.path.join(self.folder, FILE), isolation_level=None)
        other.execute("BEGIN IMMEDIATE")
        hub = self.hub(make=False)
        with hub.connect() as one:
            one.ask("resume", node="A", epoch=1)
            self.work(one, "A", 3)
            self.assertEqual(len(one.rows("history")), 2)
            other.execute("ROLLBACK")
            other.close()
            wait_until(lambda: len(one.rows("history")) == 5)
        hub.ended()
        self.agrees()

    def test_whoever_may_only_read_the_folder_reads_it(self) -> None:
        hub = self.hub()
        with self.begun(hub) as one:
            self.work(one, "A", 2)
        hub.ended()
        os.chmod(self.folder, 0o555)
        child = os.fork()
        if not child:
            status = 99
            try:
                if os.geteuid() == 0:  # (who may do all: another user reads)
                    os.setresgid(65534, 65534, 65534)
                    os.setresuid(65534, 65534, 65534)
                if not os.access(self.folder, os.W_OK):
                    status = len(recorded(self.folder))
            finally:
                os._exit(status)
        status = os.waitstatus_to_exitcode(os.waitpid(child, 0)[1])
        os.chmod(self.folder, 0o755)
        self.assertEqual(status, 2)

    def test_one_of_another_version_is_left_alone(self) -> None:
        connection = sqlite3.connect(os.path.join(self.folder, FILE))
        connection.execute("PRAGMA user_version=77")
        connection.close()
        hub = self.hub()
        with self.begun(hub) as one:
            self.work(one, "A", 1)
            with self.assertRaisesRegex(Exception, "keeps no history"):
                one.rows("history")
        self.assertIn("format 77", hub.ended()[1])


class Facts(WithHistory):
    def test_recoveries_misfires_and_refusals(self) -> None:
        hub = self.hub()
        with self.begun(hub) as one:
            self.work(one, "A", 1, leaves_open=True)
            one.ask("join", node="A")
            one.ask("pause_trigger", name="t")
            entry = one.acquire("A", now()).triggers[0].entry
            one.fire("A", entry)
            one.complete("A", entry, "SET_TRIGGER_ERROR")
            with self.assertRaises(Exception):
                one.ask("trigger_now", name="nobody")
            one.ask("add_trigger", trigger=once("late", start=now() - 100_000, misfire=0))
            one.ask("misfires", node="A")
            wait_until(lambda: self.events("error"))
            found = {row["entry"]: row for row in one.rows("history")}
        self.assertEqual((found[1]["state"], found[entry]["state"], found[entry]["recovers"], found[entry]["job"]), ("lost", "ended", 1, "DEFAULT/j"))
        kinds = {str(event["kind"]): event for event in self.events("lost", "error", "refused", "misfired")}
        self.assertEqual(set(kinds), {"lost", "error", "refused", "misfired"})
        self.assertEqual((kinds["misfired"]["trigger"], kinds["misfired"]["job"]), ("DEFAULT/late", "DEFAULT/j"))
        self.assertIn("couldn't fire it: refused 3", str(kinds["refused"]["text"]))

    def test_executed_again(self) -> None:
        hub = self.hub()
        with self.begun(hub) as one:
            entry = one.acquire("A", now()).triggers[0].entry
            one.fire("A", entry)
            one.complete("A", entry, "RE_EXECUTE_JOB")
            one.complete("A", entry, "RE_EXECUTE_JOB")
            one.complete("A", entry)
        hub.ended()
        self.assertEqual(recorded(self.folder)[entry]["refires"], 2)
        self.agrees()

    def test_who_did_what(self) -> None:
        hub = self.hub()
        with self.begun(hub) as one:
            with self.assertRaises(Exception):
                one.ask("delete_trigger", name="nobody")
            wait_until(lambda: len(one.rows("audit")) == 3)
            lines = [(json.loads(str(row["line"]))["do"], row["reply"]) for row in one.rows("audit")]
            self.assertEqual(lines[0], ("delete_trigger", "refused 4"))
            self.assertEqual([do for do, _ in lines[1:]], ["add_trigger", "add_job"])
            who = str(one.rows("audit")[0]["who"])
            self.assertRegex(who, "^user .+")
            self.assertEqual(len(one.rows("audit", by=who.removeprefix("user "))), 3)
            self.assertEqual(one.rows("audit", by="nobody"), [])
        hub.ended()
        with self.store() as store:
            store.ask("pause_trigger", name="t")
        hub = self.hub(make=False)
        with hub.connect() as one:
            wait_until(lambda: len(one.rows("audit")) == 4)
            self.assertIsNone(one.rows("audit")[0]["who"])  # (only the store knows of it)

    def test_lines_that_are_none(self) -> None:
        with self.hub().connect() as one:
            for line in ({"do": "history", "limit": 0}, {"do": "history", "before": [1, 2]}, {"do": "history", "job": 5}, {"do": "log"}, {"do": "log", "entry": -1},
                         {"do": "report", "node": "A", "told": [{"report": {"entry": 1}}]}, {"do": "report", "node": "A", "told": 7},
                         {"do": "output", "node": "A", "generation": 1, "entry": 1, "from": 0, "data": "%%"}, {"do": "audit", "since": "x"}, {"do": "last", "x": 1}):
                self.assertTrue(one._ask(json.dumps(line).encode() + b"\n", 20)[0].startswith("hub bad-line"), line)


class Stores(WithHistory):
    """A hub has one store after the other, and a restored backup gives numbers again."""

    def test_all_of_a_store_is_known_before_it_is_compacted(self) -> None:
        hub = self.hub()
        with self.begun(hub) as one:
            self.work(one, "A", 3, leaves_open=True)
            one.compact()
            self.work(one, "A", 2)
            one.complete("A", 3)
            one.compact()
            wait_until(lambda: [row["state"] for row in one.rows("history")] == ["ended"] * 5)
            self.assertEqual([row["entry"] for row in one.rows("history")], [5, 4, 3, 2, 1])
        hub.ended()
        self.agrees()
        with sqlite3.connect(os.path.join(self.folder, FILE)) as connection:
            self.assertEqual([closed for (closed,) in connection.execute("SELECT closed FROM stores ORDER BY name")], [1, 1, 0])
        self.assertEqual(self.events("gap"), [])

    def test_a_store_that_is_not_known_is_kept(self) -> None:
        hub = self.hub("--keep", "0")
        with self.begun(hub) as one:
            self.work(one, "A", 3)
        hub.ended()
        self.agrees()
        with sqlite3.connect(os.path.join(self.folder, FILE)) as connection:
            connection.execute("DELETE FROM executions WHERE entry > 1")
            connection.execute("UPDATE stores SET last = 0, exact = 0, reply = ''")
        before = os.listdir(os.path.join(self.folder, "stores"))
        folder = Folder(self.folder)
        folder.hold()
        try:
            at = folder.begin()
            shutil.copytree(folder.current, at, dirs_exist_ok=True)
            folder.finish(at, Team.read(self.folder))  # type: ignore[arg-type]
        finally:
            folder.let_go()
        hub = self.hub("--keep", "0", make=False)
        hub.connect().close()
        wait_until(lambda: len(recorded(self.folder)) == 3)  # (the store of before was there to be read)
        hub.ended()
        hub = self.hub("--keep", "0", make=False)
        hub.connect().close()
        wait_until(lambda: not set(before) & set(os.listdir(os.path.join(self.folder, "stores"))))

    def test_a_restored_backup_is_another_generation(self) -> None:
        hub = self.hub()
        backup = f"{self.folder}-backup"
        self.addCleanup(shutil.rmtree, backup, ignore_errors=True)
        with self.begun(hub) as one:
            self.work(one, "A", 2)
            self.work(one, "A", 1, leaves_open=True)
            self.assertEqual(client.main(["--hub", hub.listen, "--program", PROGRAM, "backup", backup]), 0)
            one.complete("A", 3)
            self.work(one, "A", 2)
        hub.ended()
        self.assertEqual(client.main(["--folder", self.folder, "--program", PROGRAM, "restore", backup]), 0)
        hub = self.hub(make=False)
        with hub.connect() as one:
            wait_until(lambda: len(one.rows("history")) == 6)
            one.ask("join", node="A")
            self.work(one, "A", 1)
            wait_until(lambda: len(one.rows("history")) == 7 and one.rows("history")[0]["state"] == "ended")
            found = {(row["generation"], row["entry"]): row["state"] for row in one.rows("history")}
            self.assertEqual(found, {**{(1, entry): "ended" for entry in range(1, 6)}, (2, 3): "lost", (2, 4): "ended"})
            self.assertEqual([one.rows("log", entry=4)[0]["generation"], one.rows("log", entry=4, generation=1)[0]["generation"]], [2, 1])


@unittest.skipUnless(IS_STAND_IN, "it makes the stand-in one without the word")
class WithoutTheWord(WithHistory):
    def test_a_program_that_does_not_tell(self) -> None:
        hub = self.hub(fault="no-history")
        with self.begun(hub) as one:
            self.work(one, "A", 3, leaves_open=True)
            wait_until(lambda: len(one.rows("history")) == 3)
        hub.kill()
        with self.store() as store:
            store.ask("resume", node="A", epoch=1)
            store.ask("complete", node="A", entry=3)
        hub = self.hub(make=False, fault="no-history")
        with hub.connect() as one:
            one.ask("resume", node="A", epoch=1)
            wait_until(lambda: one.rows("history")[0]["state"] == "missing")
            self.work(one, "A", 2)
            wait_until(lambda: [row["state"] for row in one.rows("history")] == ["ended", "ended", "missing", "ended", "ended"])
        self.assertIn("has no word `history`", hub.ended()[1])


