"""A hub's folder: its layout, how one of the form of before is taken over, and what each crash leaves."""
from __future__ import annotations

import json
import os
import subprocess
import sys
import unittest

from kemtrua import Store, errors, folder
from kemtrua.folder import Folder
from kemtrua.program import STORE_FILES, call, make_store
from kemtrua.team import Team
from tests.helpers import ENVIRONMENT, PROGRAM, WithFolder, job

# Opens a folder, and dies at the Nth call of something that changes it.
DIES = """
import os, sys
from kemtrua import durable
from kemtrua.folder import Folder
left = [int(sys.argv[1])]
def dying(call):
    def instead(*words, **more):
        left[0] -= 1
        if left[0] < 0:
            os._exit(9)
        return call(*words, **more)
    return instead
for module, names in ((durable, ("write", "link", "make_folder", "copy", "remove", "sync")), (os, ("link", "unlink", "mkdir", "replace", "symlink"))):
    for name in names:
        setattr(module, name, dying(getattr(module, name)))
it = Folder(sys.argv[2])
it.hold()
it.open(sys.argv[3], False)
"""


class Folders(WithFolder):
    def opened(self, make: bool = False) -> Folder:
        it = Folder(self.folder)
        it.hold(0.0)
        self.addCleanup(it.let_go)
        try:
            it.open(PROGRAM, make)
        except errors.KemtruaError:
            it.let_go()
            raise
        return it

    def before(self) -> list[str]:
        """Stores of the form of before in the folder, and their rows."""
        with Store(self.folder, PROGRAM, make=True) as store:
            store.add_job(job("kept", durable=True))
        return call(PROGRAM, self.folder, "list").splitlines()

    def test_a_new_one(self) -> None:
        it = self.opened(make=True)
        self.assertEqual(sorted(os.listdir(self.folder)), ["current", "hub.lock", "stores", "team.json"])
        self.assertEqual(sorted(os.listdir(it.current)), sorted([*STORE_FILES, "team.json"]))
        self.assertEqual(os.readlink(f"{self.folder}/current"), f"stores/{os.path.basename(it.current)}")
        with open(f"{self.folder}/team.json") as file:
            team = json.load(file)
        self.assertEqual((team["format"], team["generation"], len(team["id"])), (1, 1, 32))
        self.assertEqual(Team.read(it.current), Team.read(self.folder))

    def test_nothing_is_made_where_nobody_asks_for_it(self) -> None:
        with self.assertRaises(errors.ProgramEnded) as raised:
            self.opened()
        self.assertEqual(raised.exception.status, 6)
        self.assertEqual(os.listdir(self.folder), ["hub.lock"])

    def test_one_of_the_form_of_before_is_taken_over(self) -> None:
        rows = self.before()
        it = self.opened()
        self.assertFalse(any(os.path.exists(os.path.join(self.folder, name)) for name in STORE_FILES))
        self.assertEqual(call(PROGRAM, it.current, "list").splitlines(), rows)

    def test_a_kill_in_the_midst_of_taking_over(self) -> None:
        """Before each call that changes something: the next start goes on, and no row is gone."""
        for count in range(100):
            with self.subTest(count):
                at = f"{self.folder}/{count}"
                os.mkdir(at)
                with Store(at, PROGRAM, make=True) as store:
                    store.add_job(job("kept", durable=True))
                ended = subprocess.run([sys.executable, "-c", DIES, str(count), at, PROGRAM], env=ENVIRONMENT, capture_output=True, text=True)
                self.assertIn(ended.returncode, (0, 9), ended.stderr)
                it = Folder(at)
                it.hold(0.0)
                team = it.open(PROGRAM, False)
                self.assertEqual(Team.read(it.current), team)
                self.assertIn("job DEFAULT/kept ok durable 1 no_concurrent 0 requests_recovery 0", call(PROGRAM, it.current, "list"))
                self.assertEqual(sorted(os.listdir(at)), ["current", "hub.lock", "stores", "team.json"])
                self.assertEqual(len(os.listdir(f"{at}/stores")), 1)
                it.let_go()
                if ended.returncode == 0:
                    return
        self.fail("it took more calls than that")

    def test_files_of_before_beside_other_stores(self) -> None:
        self.opened(make=True).let_go()
        make_store(PROGRAM, self.folder)
        with open(f"{self.folder}/{STORE_FILES[0]}", "ab") as file:
            file.write(b"more")
        with self.assertRaisesRegex(errors.BadFolder, "stands beside"):
            self.opened()
        self.assertTrue(os.path.exists(f"{self.folder}/{STORE_FILES[0]}"))

    def test_what_was_being_made_or_removed_is_removed(self) -> None:
        it = self.opened(make=True)
        made = it.begin()
        self.assertGreater(made, it.current)
        open(f"{it.current}/{folder.UNFINISHED}", "w").close()  # (a kill between the change of the link and the end of the mark)
        it.let_go()
        it = self.opened()
        self.assertEqual(it.all_stores(), [it.current])
        self.assertFalse(os.path.exists(made))

    def test_names_go_up_where_the_clock_is_set_back(self) -> None:
        it = self.opened(make=True)
        later = os.path.join(self.folder, "stores", "2199-01-01T000000.000Z")
        folder.begin(later)
        it.finish(later, Team.new())
        made = it.begin()
        self.assertGreater(made, later)

    def test_as_many_old_stores_are_kept(self) -> None:
        it = self.opened(make=True)
        made = [it.current]
        for _ in range(5):
            at = it.begin()
            it.finish(at, Team.new())
            made.append(at)
            it.prune()
        self.assertEqual(it.all_stores(), made[-4:])
        self.assertEqual(it.current, made[-1])

    def test_links_and_teams_that_cannot_be(self) -> None:
        it = self.opened(make=True)
        it.let_go()
        link, team = f"{self.folder}/current", f"{self.folder}/team.json"
        right = os.readlink(link)
        for target, words in (("stores/nowhere", "isn't there"), ("/tmp", "none of the folders"), ("stores", "none of the folders")):
            os.unlink(link)
            os.symlink(target, link)
            with self.assertRaisesRegex(errors.BadFolder, words):
                self.opened(make=True)
        os.unlink(link)
        with self.assertRaisesRegex(errors.BadFolder, "say which ones count"):
            self.opened(make=True)
        os.mkdir(link)
        with self.assertRaisesRegex(errors.BadFolder, "no symbolic link"):
            self.opened(make=True)
        os.rmdir(link)
        os.symlink(right, link)
        with open(team) as file:
            own = json.load(file)
        for change, words in (({"id": "0" * 32}, "its team's"), ({"format": 2}, "format 2"), ({"id": "x"}, "no id"), ({"generation": 0}, "no id"), ({"format": None}, "no format")):
            with open(team, "w") as file:
                json.dump(own | change, file)
            with self.assertRaisesRegex(errors.BadFolder, words):
                self.opened(make=True)
        os.unlink(team)
        with self.assertRaisesRegex(errors.BadFolder, "isn't there"):
            self.opened(make=True)
        self.assertTrue(os.path.exists(f"{self.folder}/{right}/{STORE_FILES[0]}"))

    def test_commands_go_by_the_link_and_not_beside_a_hub(self) -> None:
        it = self.opened(make=True)
        with self.assertRaises(errors.StoreLocked):
            Store(self.folder, PROGRAM, wait_for_lock=0.0)
        it.let_go()
        with Store(self.folder, PROGRAM) as store:
            store.add_job(job())
            self.assertEqual(store.folder, it.current)
        self.assertFalse(os.path.exists(f"{self.folder}/{STORE_FILES[0]}"))

    @unittest.skipUnless(os.geteuid() == 0, "root gives files away")
    def test_what_root_makes_belongs_to_the_hubs_user(self) -> None:
        os.chown(self.folder, 65534, 65534)
        it = self.opened(make=True)
        for at, _, names in os.walk(self.folder):
            for name in names:
                if name not in STORE_FILES:
                    self.assertEqual(os.lstat(f"{at}/{name}").st_uid, 65534, name)
        self.assertEqual(os.stat(it.current).st_uid, 65534)


if __name__ == "__main__":
    unittest.main()
