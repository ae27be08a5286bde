"""Backups under work, what is restored, and nodes that know more than it."""
from __future__ import annotations

import io
import os
import re
import threading
import unittest

from kemtrua import Connection, Node, Store, Work, backups, errors, standby
from kemtrua.cli import client
from kemtrua.compaction import compact
from kemtrua.folder import Folder
from kemtrua.jobs import Code, Context
from kemtrua.program import call
from kemtrua.team import Team
from tests.helpers import IS_STAND_IN, PROGRAM, HubProcess, WithFolder, job, now, once, wait_until


class WithHome(WithFolder):
    def setUp(self) -> None:
        super().setUp()
        self.home = f"{self.folder}/home"
        os.mkdir(self.home)

    def made(self, name: str) -> str:
        to = f"{self.folder}/{name}"
        backups.make(self.home, to, PROGRAM)
        return to

    def team(self, folder: str) -> Team:
        found = Team.read(folder)
        assert found is not None
        return found

    def new_home(self, *jobs: str) -> None:
        it = Folder(self.home)
        it.hold(0.0)
        it.open(PROGRAM, True)
        it.let_go()
        with Store(self.home, PROGRAM) as store:
            for name in jobs:
                store.add_job(job(name, durable=True))

    def jobs(self, stores: str) -> list[str]:
        return [line.split()[1].removeprefix("DEFAULT/") for line in call(PROGRAM, stores, "list").splitlines() if line.startswith("job ")]

    def hub_at_home(self) -> HubProcess:
        hub = HubProcess(self.home, f"unix:{self.folder}/hub.sock", "--make")
        self.addCleanup(hub.kill)
        return hub


class Backups(WithHome):
    def test_under_work_each_has_what_was_acknowledged_before(self) -> None:
        hub = self.hub_at_home()
        acknowledged: list[str] = []
        ends = threading.Event()

        def add() -> None:
            with Connection(hub.address) as one:
                while not ends.is_set():
                    one.add_job(job(f"j{len(acknowledged)}", durable=True))
                    acknowledged.append(f"j{len(acknowledged)}")

        with hub.connect() as one:
            one.join("A", 1000)
            adding = threading.Thread(target=add)
            adding.start()
            for number in range(5):
                before = set(acknowledged)
                if number == 2:
                    one.compact()
                to = self.made(f"backup-{number}")
                self.assertLessEqual(before, set(self.jobs(to)))
                self.assertEqual(self.team(to), self.team(self.home))
                self.assertFalse(os.path.exists(f"{to}/unfinished"))
            ends.set()
            adding.join()

    def test_one_is_restored_as_the_next_generation(self) -> None:
        self.new_home("a")
        to, own = self.made("backup"), self.team(self.home)
        with Store(self.home, PROGRAM) as store:
            store.add_job(job("b", durable=True))
        found, at = backups.restore(to, self.home, PROGRAM)
        self.assertEqual((found.team, found.jobs), (Team(own.id, 2), 1))
        self.assertEqual((self.team(self.home), self.team(at), Folder(self.home).current), (Team(own.id, 2), Team(own.id, 2), at))
        self.assertEqual(self.jobs(at), ["a"])
        self.assertEqual(len(Folder(self.home).all_stores()), 2)  # (what was there is kept)
        backups.restore(to, self.home, PROGRAM)
        self.assertEqual(self.team(self.home).generation, 3)

    def test_one_is_restored_on_a_new_machine(self) -> None:
        self.new_home("a")
        to, own, other = self.made("backup"), self.team(self.home), f"{self.folder}/other"
        _, at = backups.restore(to, other, PROGRAM)
        self.assertEqual((self.team(other), self.jobs(at)), (Team(own.id, 2), ["a"]))
        it = Folder(other)
        it.hold(0.0)
        self.assertEqual(it.open(PROGRAM, False), Team(own.id, 2))
        it.let_go()

    def test_what_is_refused(self) -> None:
        self.new_home("a")
        to, own = self.made("backup"), self.team(self.home)
        other = f"{self.folder}/other"
        os.mkdir(other)
        home, self.home = self.home, other
        self.new_home("b")
        theirs, self.home = self.made("theirs"), home
        os.mkdir(f"{self.folder}/old")
        Store(f"{self.folder}/old", PROGRAM, make=True).close()
        for source, target, words in ((theirs, home, "its own team's backups alone"), (home, home, "no backup"), (f"{self.folder}/old", home, "no team.json"),
                                      (to, f"{self.folder}/old", "names no team")):
            with self.assertRaisesRegex(errors.BadFolder, words):
                backups.restore(source, target, PROGRAM)
        with self.assertRaisesRegex(errors.BadFolder, "something in it"):
            self.made("backup")
        with self.assertRaisesRegex(errors.BadFolder, "no hub's folder"):
            backups.make(f"{self.folder}/old", f"{self.folder}/new", PROGRAM)
        open(f"{to}/unfinished", "w").close()
        with self.assertRaisesRegex(errors.BadFolder, "never was whole"):
            backups.restore(to, home, PROGRAM)
        os.unlink(f"{to}/unfinished")
        with open(f"{to}/qz-triggers.store", "wb"):
            pass  # (a copy that came to harm)
        with self.assertRaises(errors.ProgramEnded):
            backups.restore(to, home, "/bin/false")
        self.assertEqual((self.team(home), len(os.listdir(f"{home}/stores"))), (own, 1))

    def test_not_beside_a_hub(self) -> None:
        hub = self.hub_at_home()
        hub.connect().close()
        to = self.made("backup")
        with self.assertRaises(errors.StoreLocked):
            backups.restore(to, self.home, PROGRAM)
        self.assertEqual(self.team(self.home).generation, 1)

    def test_both_are_one_command(self) -> None:
        hub = self.hub_at_home()
        with hub.connect() as one:
            one.add_job(job("a", durable=True))
        self.assertEqual(client.main(["--hub", f"unix:{self.folder}/hub.sock", "--program", PROGRAM, "backup", f"{self.folder}/backup"]), 0)
        hub.ended()
        self.assertEqual(client.main(["--folder", self.home, "--program", PROGRAM, "restore", f"{self.folder}/backup"]), 0)
        self.assertEqual(self.team(self.home).generation, 2)

    def test_a_node_that_knows_more_joins_anew(self) -> None:
        """Its epoch is that of a member of the restored store. What it runs is ended and dropped, and what is executed then has the entry number that it had before."""
        hub, seen, ended = self.hub_at_home(), [], []

        def work(context: Context) -> Code:
            seen.append((context.entry, context.job.name))
            if context.job.name == "long":
                context.stop.wait(60)
                ended.append(context.stop.is_set())
            return Code.NOOP

        with hub.connect() as one:
            one.add_job(job("long", "work", durable=True))
            one.add_job(job("short", "work", durable=True))
            node = Node("A", lambda: Connection(hub.address), {"work": work}, check_in=1000, work=Work(workers=2))
            running = threading.Thread(target=node.run, daemon=True)
            running.start()
            wait_until(lambda: one.peers() == ["A"])
            to = self.made("backup")  # (which has the epoch that the node holds)
            one.add_trigger(once("t", "long"))
            wait_until(lambda: seen)
        hub.ended()
        backups.restore(to, self.home, PROGRAM)
        again = self.hub_at_home()
        with again.connect() as one:
            wait_until(lambda: ended)
            wait_until(lambda: "member A 2" in one.listed())
            one.add_trigger(once("u", "short", now()))
            wait_until(lambda: len(seen) == 2)
            wait_until(lambda: one.entries_of("A") == [])
        node.stop()
        running.join()
        self.assertEqual((seen, ended), ([(1, "long"), (1, "short")], [True]))


class Standbys(WithHome):
    def shipped(self, rounds: list[object]) -> bytes:
        """What is shipped while these are called, one after the other."""
        out = io.BytesIO()

        def goes_on() -> bool:
            if not rounds:
                return False
            rounds.pop(0)()  # type: ignore[operator]
            return True

        standby.ship(self.home, out.write, goes_on)
        return out.getvalue()

    def change(self) -> None:
        it = Folder(self.home)
        it.hold(0.0)
        compact(it, PROGRAM, self.team(self.home), 0.0)
        it.let_go()

    def add(self, name: str) -> None:
        with Store(self.home, PROGRAM) as store:
            store.add_job(job(name, durable=True))

    def content(self, stores: str) -> bytes:
        with open(f"{stores}/qz-triggers.store", "rb") as file:
            return file.read()[:-1]  # (without the closed gate)

    def test_a_stream_begins_anew_by_itself(self) -> None:
        self.new_home("a")
        first = Folder(self.home).current
        data = self.shipped([lambda: None, lambda: self.add("b"), lambda: None, self.change, lambda: self.add("c"), lambda: None])
        self.assertEqual([name.decode() for name in re.findall(rb"stream [0-9a-f]{32} 1 (\S+)\n", data)], [os.path.basename(it) for it in Folder(self.home).all_stores()])
        to = f"{self.folder}/standby"
        standby.Receiver(to).receive(io.BytesIO(data))
        with open(f"{to}/stream", "rb") as file:
            self.assertEqual(file.read(), self.content(Folder(self.home).current))
        self.assertEqual(sorted(os.listdir(to)), ["stream", "team.json"])
        cut = data.index(b"stream ", 10)
        standby.Receiver(f"{self.folder}/cut").receive(io.BytesIO(data[:cut]))
        with open(f"{self.folder}/cut/stream", "rb") as file:
            self.assertEqual(file.read(), self.content(first))  # (all of the old one came before the new one began)

    def test_the_old_one_stays_until_the_new_one_is_whole(self) -> None:
        self.new_home("a")
        data, to = self.shipped([lambda: None]), f"{self.folder}/standby"
        standby.Receiver(to).receive(io.BytesIO(data))
        with open(f"{to}/stream", "rb") as file:
            old = file.read()
        for place in range(len(data) - len(b"whole\n")):
            try:
                standby.Receiver(to).receive(io.BytesIO(data[:place]))
            except standby.Broken:
                pass
            with open(f"{to}/stream", "rb") as file:
                self.assertEqual(file.read(), old, place)

    def test_what_is_no_stream(self) -> None:
        self.new_home("a")
        data, to = self.shipped([lambda: None]), f"{self.folder}/standby"
        for bad in (b"hello\n", b"bytes 4\nabcd", b"whole\n", data[:-8], b"stream x\n"):
            with self.assertRaises(standby.Broken):
                standby.Receiver(to).receive(io.BytesIO(bad))
        standby.Receiver(to).receive(io.BytesIO(data))
        with self.assertRaisesRegex(errors.BadFolder, "name another folder"):
            standby.Receiver(to).receive(io.BytesIO(data.replace(self.team(self.home).id.encode(), b"0" * 32)))

    @unittest.skipIf(IS_STAND_IN, "the stand-in follows nothing")
    def test_it_is_put_in_place_as_a_backup_is(self) -> None:
        self.new_home("a")
        to = f"{self.folder}/standby"
        standby.Receiver(to).receive(io.BytesIO(self.shipped([lambda: None, lambda: self.add("b"), lambda: None])))
        _, at = backups.restore(to, f"{self.folder}/other", PROGRAM)
        self.assertEqual(self.jobs(at), ["a", "b"])


if __name__ == "__main__":
    unittest.main()
