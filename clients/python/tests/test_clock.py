"""A hub whose clock may be wrong asks the program nothing, and nodes live by the hub's."""
from __future__ import annotations

import subprocess
import time
import unittest
from unittest import mock

from kemtrua import Connection, __version__, clock, errors, rows
from kemtrua.hub.timekeeping import Timekeeping, moment_of
from kemtrua.names import Key
from kemtrua.team import Team
from tests.helpers import ENVIRONMENT, WithFolder, command, job, now, once, wait_until

YEAR = 365 * 86_400_000


class Timekeepings(unittest.TestCase):
    def test_small_steps_are_borne_and_great_ones_are_not(self) -> None:
        real = clock.now
        for step, believed in ((59_000, True), (-10 * YEAR, True), (61_000, False), (YEAR, False)):
            times = Timekeeping()
            self.assertTrue(times.look())
            with mock.patch.object(clock, "now", lambda: real() + step):
                self.assertEqual(times.look(), believed, step)
                self.assertEqual(times.look(), believed, step)
                times.accept()
                self.assertTrue(times.look())

    def test_the_stores_moment_at_the_start(self) -> None:
        for away, believed in ((0, True), (-86_000_000, True), (-87_000_000, False), (3_500_000, True), (3_700_000, False), (YEAR, False)):
            times = Timekeeping()
            times.begin(clock.now() + away)
            self.assertEqual(times.look(), believed, away)
        times = Timekeeping()
        times.begin(None)
        self.assertTrue(times.look())

    def test_what_rows_say_of_it(self) -> None:
        key = Key("g", "t")
        listed = [rows.CheckInRow("A", 7, 1000), rows.EntryRow(1, "A", 1, key, "EXECUTING", 5, 9), rows.TriggerRow(key, key, "WAITING", 99, 8, 1, 5, 99, "cron"),
                  rows.MemberRow("A", 1)]
        self.assertEqual(moment_of(listed), 9)
        self.assertIsNone(moment_of(listed[3:]))


class Hubs(WithFolder):
    def setUp(self) -> None:
        super().setUp()
        self.ahead = f"{self.folder}/ahead"
        self.set_clock(0)

    def set_clock(self, ms: int) -> None:
        with open(self.ahead, "w") as file:
            file.write(str(ms))

    def client(self, *words: str) -> subprocess.CompletedProcess[str]:
        return subprocess.run([*command("client"), "--hub", f"unix:{self.folder}/hub.sock", *words], env=ENVIRONMENT, capture_output=True, text=True, timeout=60)

    def test_the_hub_says_its_moment_and_its_protocol(self) -> None:
        with self.hub().connect() as one:
            self.assertAlmostEqual(one.clock(), now(), delta=2000)
            self.assertEqual(one.hello(), __version__)
            team = Team.read(self.folder)
            assert team is not None
            self.assertEqual(one.answer_raw(b'{"do":"hello","protocol":1}'), f"hello 1 {__version__} {team.id} 1")
            self.assertEqual(one.team(), team)

    def test_who_is_too_old_or_too_new_is_told_so(self) -> None:
        with self.hub().connect() as one:
            for words, wanted in (('"protocol":2', "hub too-new"), ('"protocol":0', "hub too-old"), ('"version":"99.0.0"', "hub too-new"), ('"version":"0.1.0"', "hello 1"),
                                  ('"protocol":"x"', "hub bad-line")):
                self.assertTrue(one.answer_raw(b'{"do":"hello",%b}' % words.encode()).startswith(wanted), words)

    def test_a_clock_that_jumps_a_year_asks_the_program_nothing(self) -> None:
        """Before, the next line was recorded a year ahead, and a store's moment never falls."""
        hub = self.hub(ahead=self.ahead)
        with hub.connect() as one:
            one.join("A", 15000)
            self.set_clock(YEAR)
            for ask in (lambda: one.check_in("A", 15000), one.show_next, lambda: one.add_job(job()), one.clock):
                with self.assertRaises(errors.HubRefused) as raised:
                    ask()
                self.assertEqual(raised.exception.word, "clock")
            wait_until(lambda: "jumped ahead by 365 days" in hub.said())
            self.assertEqual(one.peers(), ["A"])  # (which asks nothing of the program)
            self.set_clock(0)
            with self.assertRaises(errors.HubRefused):
                one.check_in("A", 15000)  # (somebody has to look first)
            self.assertEqual(self.client("clock", "accept").returncode, 0)
            one.check_in("A", 15000)

    def test_a_clock_that_is_wrong_at_the_start(self) -> None:
        first = self.hub(ahead=self.ahead)
        with first.connect() as one:
            one.join("A", 15000)
        self.assertEqual(first.ended()[0], 0)
        for ahead, word in ((-2 * 3_600_000, "before the store's latest moment"), (2 * 86_400_000, "past the store's latest moment")):
            self.set_clock(ahead)
            hub = self.hub(make=False, ahead=self.ahead)
            with hub.connect() as one:
                with self.assertRaises(errors.HubRefused) as raised:
                    one.join("A", 15000)
                self.assertIn(word, str(raised.exception))
                said = self.client("clock")
                self.assertEqual((said.returncode, word in said.stderr), (1, True))
                self.assertEqual(one.accept_clock() > 0, True)
                one.join("A", 15000)
            self.assertEqual(hub.ended()[0], 0)

    def test_only_operators_accept_it(self) -> None:
        hub = self.hub("--listen-nodes", f"unix:{self.folder}/nodes.sock")
        hub.connect().close()
        with hub.connect_at(f"unix:{self.folder}/nodes.sock") as one:
            self.assertGreater(one.clock(), 0)
            with self.assertRaises(errors.HubRefused) as raised:
                one.accept_clock()
            self.assertEqual(raised.exception.word, "no-right")

    def lateness(self, one: Connection, of: str, name: str) -> int:
        """How late a trigger of a job fires, in ms, that is due once in a moment."""
        start = now() + 2500
        one.add_trigger(once(name, of, start))
        wait_until(lambda: one.show_trigger(Key("DEFAULT", name)) is None)
        with open(f"{self.folder}/ran") as file:
            return int(file.read().split()[-1]) - start

    def test_a_node_fires_by_the_hubs_time(self) -> None:
        """Before, a node whose clock was 3 s slow fired 3 s late, and one that was fast sent a `fire` each few ms."""
        for ahead in (-3000, 3000):
            with self.subTest(ahead):
                self.set_clock(ahead)
                hub = self.hub()
                with open(f"{self.folder}/node.toml", "w") as file:
                    file.write(f'format = 1\n[node]\nhub = "unix:{self.folder}/hub.sock"\ncheck_in = 1000\n[class.ok]\n'
                               f'command = ["sh", "-c", "date +%s%3N >> {self.folder}/ran"]\n')
                node = subprocess.Popen([*command("node", self.ahead), f"{self.folder}/node.toml", "--name", "A"], env=ENVIRONMENT, stderr=subprocess.DEVNULL)
                self.addCleanup(lambda node=node: (node.kill(), node.wait()))
                with hub.connect() as one:
                    wait_until(lambda: one.peers() == ["A"])
                    one.add_job(job(f"j{ahead}", durable=True))
                    late = [self.lateness(one, f"j{ahead}", f"t{ahead}-{number}") for number in range(3)]
                self.assertGreaterEqual(min(late), 0)
                self.assertLess(min(late), 2500)  # (a busy machine makes one late or the other; a node that fires by its own clock all)
                node.kill()
                node.wait()
                hub.kill()


if __name__ == "__main__":
    unittest.main()
