"""Several hubs of one team as processes, over a real etcd."""
from __future__ import annotations

import asyncio
import filecmp
import json
import os
import shutil
import signal
import subprocess
import sys
import tempfile
import time
import unittest
from dataclasses import replace

from kemtrua import __version__
from kemtrua.address import Address, Tls
from kemtrua.checking import Line
from kemtrua.connection import Connection
from kemtrua.errors import BadSettings, HubRefused, KemtruaError, Unanswered, Unreachable
from kemtrua.etcd import Etcd, delete, end_of, put
from kemtrua.etcdlink import Endpoint
from kemtrua.history.questions import Filter, Questions
from kemtrua.history.schema import NoHistory
from kemtrua.hubs import Hubs, addresses_of
from kemtrua.program import STORE_FILES
from kemtrua.several.layout import HubRow, Keys, LeaderRow, TeamRow
from tests.etcds import ETCD, Etcds
from tests.helpers import ROOT, HubProcess, WithFolder, job, now, once, wait_until
from tests.test_tls import make_authority, make_certificate

BEGINS_WITHIN = 120.0  # seconds


class Lists(unittest.TestCase):
    """What nodes and clients are told of several hubs."""

    def test_read(self) -> None:
        self.assertEqual([str(it) for it in addresses_of("tls:a:1, tls:b:2")], ["tls:a:1", "tls:b:2"])
        self.assertEqual(addresses_of("/run/x"), [Address(path="/run/x")])
        for text in ("", "tls:a:1,b", ","):
            with self.assertRaises(BadSettings):
                addresses_of(text)

    def test_none_there(self) -> None:
        with self.assertRaisesRegex(Unreachable, "none of 2 hubs answers: no hub answers at unix:/a/b.sock.*; no hub answers at unix:/a/c"):
            Hubs(addresses_of("unix:/a/b.sock,unix:/a/c.sock")).connect()


class AloneStill(WithFolder):
    """Without --etcd there is one hub, as ever."""

    def test_no_team(self) -> None:
        with self.hub().connect() as hub:
            with self.assertRaises(HubRefused) as raised:
                hub.rows("team")
        self.assertEqual(raised.exception.word, "not-here")

    def test_words_that_belong_to_etcd(self) -> None:
        for words, pattern in (("--team t", "go with --etcd"), ("--etcd http://127.0.0.1:1", "wants at least one URL, and --team"),
                               ("--etcd http://far:1 --team t", "without TLS"), ("--etcd https://far:1 --team t", "wants a certificate"),
                               ("--etcd http://127.0.0.1:1 --team a/b", "a team's name in etcd"),
                               ("--etcd https://h --team t --etcd-key x", "belong together")):
            status, said = self.hub(*words.split()).ended(None)
            self.assertEqual(status, 1)
            self.assertRegex(said, pattern)


@unittest.skipUnless(ETCD, "no etcd is on this machine")
class Several(unittest.TestCase):
    number = 0

    @classmethod
    def setUpClass(cls) -> None:
        cls.base = tempfile.mkdtemp(prefix="kemtrua-etcd-")
        cls.addClassCleanup(shutil.rmtree, cls.base, True)
        cls.etcds = Etcds(cls.base)
        cls.addClassCleanup(cls.etcds.end)
        cls.etcds.wait()
        before = os.environ.get("STAND_IN_STATES")
        os.environ["STAND_IN_STATES"] = "journal"
        cls.addClassCleanup(lambda: os.environ.update({"STAND_IN_STATES": before}) if before else os.environ.pop("STAND_IN_STATES", None))

    def setUp(self) -> None:
        Several.number += 1
        self.team = f"team-{Several.number}"
        self.folder = tempfile.mkdtemp(prefix="kemtrua-")
        self.addCleanup(shutil.rmtree, self.folder, True)
        self.processes: dict[str, HubProcess] = {}

    def start(self, *names: str, words: tuple[str, ...] = (), make: bool = True, ahead: str = "") -> None:
        for name in names:
            folder = os.path.join(self.folder, name)
            os.makedirs(folder, exist_ok=True)
            own = ["--etcd", self.etcds.endpoints, "--team", self.team, "--name", name, *words]
            hub = HubProcess(folder, f"unix:{folder}.sock", *(["--make"] if make else []), *own, ahead=ahead)
            self.addCleanup(hub.kill)
            self.processes[name] = hub

    def hubs(self) -> Hubs:
        return Hubs([it.address for it in self.processes.values()])

    def connect(self, within: float = BEGINS_WITHIN) -> Connection:
        """To the one that leads, once there is one."""
        until = time.monotonic() + within
        while True:
            try:
                made = self.hubs().connect()
                self.addCleanup(made.close)
                made.hello()  # (of one hub nobody has asked yet whether it leads)
                made.answer_within = 20.0
                return made
            except KemtruaError:
                if time.monotonic() > until:
                    raise AssertionError("\n".join(it.said() for it in self.processes.values())) from None
                time.sleep(0.05)

    def said_by(self, name: str) -> str:
        """What this hub answers to a question."""
        try:
            with self.processes[name].connect() as one:
                return one.answer({"do": "show_next"})
        except KemtruaError as error:
            return str(error)

    def is_answered(self, line: Line) -> str:
        try:
            return self.connect().answer(line)
        except KemtruaError as error:
            return str(error)

    def leader_of(self, connection: Connection) -> str:
        return os.path.basename(connection.address.path).removesuffix(".sock")

    def other_than(self, name: str) -> str:
        return next(it for it in self.processes if it != name)

    def wait_until_level(self, connection: Connection, count: int) -> None:
        wait_until(lambda: len(rows := connection.rows("team")[1:]) == count and all(it["behind"] == 0 for it in rows), BEGINS_WITHIN)

    def files_of(self, name: str) -> list[str]:
        return [os.path.join(self.folder, name, "current", file) for file in STORE_FILES]

    def in_etcd(self, work) -> None:  # type: ignore[no-untyped-def]
        async def all_of_it() -> None:
            one = Etcd(Endpoint.all_of(self.etcds.endpoints), within=10.0)
            await work(one)
            one.close()

        asyncio.run(all_of_it())

    def test_one_is_killed(self) -> None:
        """The other one leads, with all that was acknowledged; a node resumes; the one that comes back stands by, with the same files."""
        self.start("a", "b")
        one = self.connect()
        epoch = one.join("north", 15000).epoch
        for number in range(5):
            one.add_job(job(f"j{number}"))
        leader = self.leader_of(one)
        other = self.other_than(leader)
        with self.processes[other].connect() as standby:
            with self.assertRaises(HubRefused) as raised:
                standby.add_job(job("never"))
            self.assertEqual(raised.exception.word, "standby")
            self.assertTrue(str(raised.exception).startswith(f"unix:{self.folder}/{leader}.sock"))
            told, *hubs = standby.rows("team")
            self.assertEqual((told["leader"], told["team"], len(hubs)), (leader, self.team, 2))
        self.processes[leader].kill()
        two = self.connect()
        self.assertEqual(self.leader_of(two), other)
        self.assertEqual(sum(line.startswith("job ") for line in two.listed()), 5)
        two.resume("north", epoch)
        self.start(leader)
        two.add_job(job("after"))
        self.wait_until_level(two, 2)
        for own, others in zip(self.files_of(leader), self.files_of(other)):
            self.assertTrue(filecmp.cmp(own, others, shallow=False))

    def test_one_is_stopped(self) -> None:
        """It is fenced when it wakes up: it answers nothing more, drops what it did, and stands by."""
        self.start("a", "b")
        one = self.connect()
        leader = self.leader_of(one)
        self.wait_until_level(one, 2)
        self.processes[leader].process.send_signal(signal.SIGSTOP)
        one.answer_within = 1.0
        with self.assertRaises(Unanswered):
            one.add_job(job("lost"))
        two = self.connect()
        self.assertNotEqual(self.leader_of(two), leader)
        two.add_job(job("kept"))
        self.processes[leader].process.send_signal(signal.SIGCONT)
        wait_until(lambda: "stands by" in self.processes[leader].said().rpartition("doesn't lead any more")[2], BEGINS_WITHIN)
        self.wait_until_level(two, 2)
        self.assertEqual([line.split()[1] for line in two.listed() if line.startswith("job ")], ["DEFAULT/kept"])
        for own, others in zip(self.files_of("a"), self.files_of("b")):
            self.assertTrue(filecmp.cmp(own, others, shallow=False))

    def test_nothing_is_answered_without_etcd(self) -> None:
        self.start("a")
        one = self.connect()
        one.add_job(job("before"))
        self.etcds.signal(0, signal.SIGSTOP)
        try:
            two, three = self.connect(), self.processes["a"].connect()
            asked: list[tuple[Connection, Line]] = [
                (one, {"do": "add_job", "job": job("held")}), (two, {"do": "show_job", "name": "before"}), (three, {"do": "show_next"})]
            for connection, line in asked:
                connection.answer_within = 1.5
                try:  # (on a slow machine the lease's last second comes meanwhile)
                    self.assertTrue((said := connection.answer(line)).startswith("hub etcd"), f"{line}: {said}")
                except (Unanswered, Unreachable):
                    pass
            wait_until(lambda: self.said_by("a").startswith(("hub etcd etcd doesn't answer", "hub standby")), BEGINS_WITHIN)
            wait_until(lambda: self.said_by("a").startswith("hub standby"), BEGINS_WITHIN)
        finally:
            self.etcds.signal(0, signal.SIGCONT)
        wait_until(lambda: self.is_answered({"do": "show_job", "name": "before"}).startswith("job "), BEGINS_WITHIN)

    def test_a_compaction_and_an_end_in_good_order(self) -> None:
        """The compact stores take the place of the old ones in etcd. Who ends in good order lets another one lead at once."""
        self.start("a", "b")
        one = self.connect()
        for number in range(10):
            one.add_job(job(f"j{number}"))
        stores = one.rows("team")[0]["stores"]
        one.compact()
        one.add_job(job("after"))
        self.wait_until_level(one, 2)
        self.assertNotEqual(one.rows("team")[0]["stores"], stores)

        keys = Keys(self.team)

        async def look(etcd: Etcd) -> None:
            begin = keys.blocks(str(stores))
            self.assertEqual((await etcd.range(begin, end_of(begin))).pairs, [])
            await etcd.transact([], [put(keys.block("2000", 0), b"of a leader that was killed"), put(keys.block("9999", 0), b"")], [])

        self.in_etcd(look)
        leader = self.leader_of(one)
        self.assertEqual(self.processes[leader].ended()[0], 0)
        two = self.connect()
        self.assertEqual(sum(line.startswith("job ") for line in two.listed()), 11)
        for own, others in zip(self.files_of("a"), self.files_of("b")):
            self.assertTrue(filecmp.cmp(own, others, shallow=False))

        async def look_again(etcd: Etcd) -> None:
            for name in ("2000", "9999"):
                self.assertIsNone(await etcd.get(keys.block(name, 0)))

        self.in_etcd(look_again)

    def test_a_clock_that_parts_from_the_leaders(self) -> None:
        """Such a hub says so, lets others lead first, and leads where none does."""
        ahead = os.path.join(self.folder, "ahead")
        with open(ahead, "w") as file:
            file.write("10000")
        self.start("a")
        one = self.connect()
        self.start("b", ahead=ahead)
        self.wait_until_level(one, 2)
        time.sleep(2.5)  # (each hub says every two seconds what its clock shows)
        self.processes["a"].kill()
        self.assertEqual(self.leader_of(self.connect()), "b")
        self.assertRegex(self.processes["b"].said(), r"clock parts by -(9|10)\d{3} ms from the last leader's: another hub may lead first")

    def test_small_blocks_are_merged(self) -> None:
        """A hub that was behind and a new one read on from what is merged."""
        hooks = os.path.join(self.folder, "hooks.json")
        with open(hooks, "w") as file:
            json.dump({"merge_look": 0.3, "merge_after": 20}, file)
        os.environ["KEMTRUA_TEST"] = hooks
        self.addCleanup(os.environ.pop, "KEMTRUA_TEST", None)
        self.start("a", "b")
        one = self.connect()
        self.wait_until_level(one, 2)
        other = self.other_than(self.leader_of(one))
        self.processes[other].kill()
        for number in range(60):
            one.add_job(job(f"j{number}"))
        told = one.rows("team")[0]
        keys = Keys(self.team)
        counts: list[int] = []

        async def count(etcd: Etcd) -> None:
            begin = keys.blocks(str(told["stores"]))
            counts.append(sum([len(page.pairs) async for page in etcd.pages(begin, end_of(begin))]))

        def are_few() -> bool:
            self.in_etcd(count)
            return counts[-1] < 40

        self.assertGreater(told["places"], 50)
        wait_until(are_few, BEGINS_WITHIN)
        self.start(other, "c")
        one.add_job(job("last"))
        self.wait_until_level(one, 3)
        for name in (other, "c"):
            for own, others in zip(self.files_of(name), self.files_of(self.leader_of(one))):
                self.assertTrue(filecmp.cmp(own, others, shallow=False))

    def test_folders_that_do_not_fit(self) -> None:
        """A folder of another team is refused; one without stores begins no team; one of a hub alone brings its stores along."""
        home = os.path.join(self.folder, "a")
        os.mkdir(home)
        alone = HubProcess(home, f"unix:{home}.sock", "--make")
        with alone.connect() as hub:
            hub.add_job(job("old"))
        alone.ended()
        self.start("b", make=False)
        time.sleep(1.0)
        self.start("a", make=False)
        one = self.connect()
        self.assertEqual(self.leader_of(one), "a")
        self.wait_until_level(one, 2)
        self.assertTrue(any(line.startswith("job DEFAULT/old ") for line in one.listed()))
        other = os.path.join(self.folder, "c")
        os.mkdir(other)
        stranger = HubProcess(other, f"unix:{other}.sock", "--make")
        stranger.connect().close()
        stranger.ended()
        self.start("c")
        status, said = self.processes.pop("c").ended(None)
        self.assertEqual(status, 6)
        self.assertRegex(said, "etcd has team [0-9a-f]+, and .* is of team .*: name another folder")

    def test_an_etcd_that_was_restored(self) -> None:
        """Another cluster's team is taken by nobody, until somebody says so: then it goes on as the next generation."""
        self.start("a")
        one = self.connect()
        one.add_job(job("kept"))
        self.processes["a"].ended()
        keys = Keys(self.team)

        async def restore(etcd: Etcd) -> None:
            pair = await etcd.get(keys.team)
            assert pair is not None
            await etcd.transact([], [put(keys.team, replace(TeamRow.of(pair.value), cluster="abc").data())], [])

        self.in_etcd(restore)
        self.start("a")
        status, said = self.processes["a"].ended(None)
        self.assertEqual(status, 1)
        self.assertIn("it was restored", said)
        self.start("a", words=("--etcd-restored",))
        two = self.connect()
        team = two.team()
        self.assertEqual(team and team.generation, 2)
        self.assertTrue(any(line.startswith("job DEFAULT/kept ") for line in two.listed()))

    def test_an_etcd_whose_history_is_another_one(self) -> None:
        """Where blocks are gone that a folder has, as after a restore of the same cluster, it says so and ends."""
        self.start("a")
        one = self.connect()
        for number in range(5):
            one.add_job(job(f"j{number}"))
        told = one.rows("team")[0]
        self.processes["a"].ended()
        keys = Keys(self.team)

        async def forget(etcd: Etcd) -> None:
            await etcd.transact([], [delete(*keys.rest_of(str(told["stores"]), int(str(told["places"])) - 2))], [])

        self.in_etcd(forget)
        self.start("a")
        status, said = self.processes["a"].ended(None)
        self.assertEqual(status, 1)
        self.assertIn("its history is another one", said)
        self.start("a", words=("--etcd-restored",))
        two = self.connect()
        team = two.team()
        self.assertEqual(team and team.generation, 2)
        self.assertEqual(sum(line.startswith("job ") for line in two.listed()), 3)

    def test_a_team_of_a_later_version(self) -> None:
        keys = Keys(self.team)

        async def write(etcd: Etcd) -> None:
            await etcd.transact([], [put(keys.team, TeamRow(9, "a" * 32, 1, "s", f"{etcd.cluster or 0:x}").data())], [])

        self.in_etcd(write)
        self.start("a")
        status, said = self.processes["a"].ended(None)
        self.assertEqual(status, 1)
        self.assertIn("in the format 9", said)

    def test_what_ran_is_known_to_the_hub_that_leads_next(self) -> None:
        self.start("a", "b")
        one = self.connect()
        one.ask("add_job", job=job(durable=True))
        for name in ("t", "u"):
            one.ask("add_trigger", trigger=once(name))
        epoch = one.join("A", 15000).epoch
        first, second = (one.acquire("A", now()).triggers[0].entry for _ in range(2))  # type: ignore[attr-defined]
        one.fire("A", first)
        told = {"generation": 1, "entry": first, "epoch": epoch, "trigger": "DEFAULT/t", "job": "DEFAULT/j", "klass": "ok", "scheduled": 1, "fired": now(),
                "ended": now(), "refires": 0, "ok": 0, "code": "NOOP", "status": 3}
        self.assertEqual(one.stored("report", node="A", told=[{"report": told, "from": 0, "data": "b3V0"}]), 1)
        one.complete("A", first)
        leader = self.leader_of(one)
        other = os.path.join(self.folder, self.other_than(leader))
        wait_until(lambda: self.states_in(other) == {first: "failed"}, BEGINS_WITHIN)  # (once it has taken the leader's history)
        self.processes[leader].kill()
        one = self.connect()
        self.assertNotEqual(self.leader_of(one), leader)
        one.ask("resume", node="A", epoch=epoch)
        one.fire("A", second)
        wait_until(lambda: len(one.rows("history")) == 2)
        found = {row["entry"]: row for row in one.rows("history")}
        self.assertEqual((found[first]["state"], found[first]["status"], found[second]["state"]), ("failed", 3, "runs"))
        self.assertEqual((found[second]["trigger"], found[second]["job"], found[second]["class"]), ("DEFAULT/u", "DEFAULT/j", "ok"))
        self.assertEqual(one.rows("log", entry=first)[0]["data"], "b3V0")

    def states_in(self, folder: str) -> dict[int, str]:
        try:
            with Questions(folder) as asked:
                return {int(str(it["entry"])): str(it["state"]) for it in asked.executions(Filter())}
        except NoHistory:
            return {}

    def test_hubs_of_versions_that_are_too_far_apart(self) -> None:
        keys = Keys(self.team)

        async def write(etcd: Etcd) -> None:
            await etcd.transact([], [put(keys.leader, LeaderRow("b", "unix:/b", "0", "9.9.0", "9.9.0").data())], [])

        self.in_etcd(write)
        self.start("a")
        status, said = self.processes["a"].ended(None)
        self.assertEqual(status, 1)
        self.assertIn("b leads in version 9.9.0", said)
        self.assertIn("too far apart", said)

    def test_the_term_names_the_oldest_version(self) -> None:
        keys = Keys(self.team)
        first, second, _ = __version__.split(".")
        older = f"{first}.{int(second) - 1}.7"

        async def write(etcd: Etcd) -> None:
            for name, version in (("b", older), ("c", __version__), ("d", "9.9.0")):
                await etcd.transact([], [put(keys.hub(name), HubRow(name, f"unix:/{name}", version, False, "", 0, 0).data())], [])

        self.in_etcd(write)
        self.start("a")
        self.assertEqual(self.connect().rows("team")[0]["oldest"], older)  # (d ends once it sees who leads)

    def test_the_command(self) -> None:
        self.start("a", "b")
        one = self.connect()
        self.wait_until_level(one, 2)
        listed = ",".join(str(it.address) for it in self.processes.values())
        ran = subprocess.run([sys.executable, "-m", "kemtrua.cli.client", "--hub", listed, "team"], capture_output=True, text=True,
                             env={**os.environ, "PYTHONPATH": ROOT})
        self.assertEqual((ran.returncode, ran.stderr), (0, ""))
        self.assertRegex(ran.stdout, rf"team {self.team}: {self.leader_of(one)} leads, in term \d+\n")
        self.assertRegex(ran.stdout, r"(?m)^b +(leads|stands by) +0 ")


class NoEtcd(WithFolder):
    def test_it_says_so_and_waits(self) -> None:
        hub = self.hub("--etcd", "http://127.0.0.1:1", "--team", "t")
        wait_until(lambda: "no etcd answers at http://127.0.0.1:1" in hub.said())
        with hub.connect() as one:
            with self.assertRaises(HubRefused) as raised:
                one.add_job(job())
            self.assertEqual(raised.exception.word, "standby")
            with self.assertRaises(HubRefused) as raised:
                one.rows("team")
            self.assertEqual(raised.exception.word, "etcd")
        self.assertEqual(hub.ended()[0], 0)


@unittest.skipUnless(ETCD and shutil.which("openssl"), "etcd and openssl are wanted")
class OverTls(WithFolder):
    def test_certificates(self) -> None:
        """With the right ones a hub leads; with others it says which side doesn't trust the other, and stands by."""
        for authority in ("team", "stranger"):
            make_authority(self.folder, authority)
        own, right, wrong = (make_certificate(self.folder, *it) for it in (("team", "etcd"), ("team", "hub"), ("stranger", "hub")))
        etcds = Etcds(self.folder, tls=(own.certificate, own.key, own.authority))
        self.addCleanup(etcds.end)
        etcds.wait()
        os.environ["STAND_IN_STATES"] = "journal"
        self.addCleanup(os.environ.pop, "STAND_IN_STATES", None)

        def begun(tls: Tls) -> HubProcess:
            return self.hub("--etcd", etcds.endpoints, "--team", "t", "--etcd-certificate", tls.certificate, "--etcd-key", tls.key,
                            "--etcd-authority", tls.authority)

        stranger = begun(wrong)
        wait_until(lambda: "isn't trusted" in stranger.said(), BEGINS_WITHIN)
        stranger.kill()
        hub = begun(right)
        wait_until(lambda: "this hub leads in term" in hub.said(), BEGINS_WITHIN)


if __name__ == "__main__":
    unittest.main()
