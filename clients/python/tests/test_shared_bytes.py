"""What goes to etcd of two files, and what a folder makes of it, without etcd."""
from __future__ import annotations

import os
import random
import struct
import unittest
from dataclasses import replace

from kemtrua.errors import BadFolder, BadSettings, NotFitting
from kemtrua.folder import Folder
from kemtrua.program import STORE_FILES
from kemtrua.several.layout import FORMAT, LARGEST, BadShared, Block, HubRow, Keys, TeamRow, Write
from kemtrua.several.mirror import FILE, Known, Mirror
from kemtrua.several.tail import Tail, whole_in
from kemtrua.team import Team
from tests.helpers import WithFolder

ROW = TeamRow(FORMAT, "a" * 32, 1, "2026-12-01T000000.000Z", "c1")


class Values(unittest.TestCase):
    def test_keys(self) -> None:
        keys = Keys("night-shift")
        self.assertEqual(keys.block("s", 26), b"/kemtrua/night-shift/blocks/s/000000000000001a")
        self.assertEqual(keys.place_of("s", keys.block("s", 26)), 26)
        for key in (keys.block("t", 26), keys.team, keys.blocks("s")):
            self.assertIsNone(keys.place_of("s", key))

    def test_bad_names(self) -> None:
        for name in ("", "a/b", "a b", "x" * 65):
            with self.assertRaises(BadSettings):
                Keys(name)

    def test_rows(self) -> None:
        row = HubRow("a", "tls:a:1", "0.4.0", True, "s", 3, 5)
        self.assertEqual(HubRow.of(row.data()), row)
        self.assertEqual(TeamRow.of(ROW.data()[:-1] + b',"later":1}'), ROW)  # (a member of a later version)
        for data in (b"", b"[]", b"{}", b'{"hub":1}'):
            with self.assertRaises(BadShared):
                HubRow.of(data)
        with self.assertRaises(NotFitting):
            replace(ROW, format=2).look()

    def test_blocks(self) -> None:
        writes = [Write(0, 16, b"abc"), Write(1, 2**40, b""), Write(0, 0, bytes(16))]
        block = Block(7, 5, b"".join(it.encoded() for it in writes))
        self.assertEqual(Block.of(block.encoded()), block)
        self.assertEqual(list(block.writes()), writes)
        for data in (b"", b"\x01", block.encoded()[:-1]):
            with self.assertRaises(BadShared):
                list(Block.of(data).writes())
        with self.assertRaises(NotFitting):
            Block.of(b"\x02" + block.encoded()[1:])

    def test_merged_ones_have_the_same_sum(self) -> None:
        first = Block(1, 0, Write(0, 16, b"a").encoded())
        second = Block(1, first.after, Write(0, 17, b"b").encoded())
        self.assertEqual(Block(2, 0, first.body + second.body).after, second.after)


def payload(size: int) -> bytes:
    return b"\xa5" + struct.pack(">I", size) + bytes([size % 251]) * size


class Files(WithFolder):
    """Two journals that grow, and the folder of a hub that stands by."""

    def setUp(self) -> None:
        super().setUp()
        self.stores = os.path.join(self.folder, "leader")
        self.home = os.path.join(self.folder, "standby")
        os.mkdir(self.stores)
        os.mkdir(self.home)
        self.bytes = [bytearray(b"QZ23\x02T" + bytes(11)), bytearray(b"QZ23\x02S" + bytes(11))]
        self.write()
        self.tail = Tail(self.stores)
        self.blocks: list[Block] = []

    def write(self) -> None:
        for name, data in zip(STORE_FILES, self.bytes):
            with open(os.path.join(self.stores, name), "wb" if not os.path.exists(os.path.join(self.stores, name)) else "r+b") as file:
                file.write(data)

    def add(self, file: int, data: bytes) -> None:
        self.bytes[file][-1:] = data + b"\0"
        self.write()

    def put(self) -> None:
        """Takes what is new, as a leader does."""
        is_all = False
        while not is_all:
            parts, is_all = self.tail.read()
            for writes in parts:
                before = self.blocks[-1].after if self.blocks else 0
                self.blocks.append(Block(1, before, b"".join(it.encoded() for it in writes)))
                self.tail.took(writes)

    def mirrored(self, row: TeamRow = ROW) -> Mirror:
        """A mirror that has all blocks."""
        mirror = Mirror.begun(Folder(self.home), row)
        self.addCleanup(mirror.close)
        for place in range(mirror.known.place, len(self.blocks)):
            mirror.apply(place, self.blocks[place], 100 + place)
        mirror.finish()
        return mirror

    def files_of(self, mirror: Mirror) -> list[bytes]:
        found = []
        for name in STORE_FILES:
            with open(os.path.join(mirror.stores, name), "rb") as file:
                found.append(file.read())
        return found

    def test_an_empty_store(self) -> None:
        self.put()
        self.assertEqual(self.files_of(self.mirrored()), [bytes(it) for it in self.bytes])
        self.assertEqual(Folder(self.home).current, os.path.join(self.home, "stores", ROW.stores))
        self.assertEqual(Team.read(self.home), Team(ROW.id, 1))

    def test_as_it_grows(self) -> None:
        """Whatever is added between two puts, the folder has the same bytes, and a whole file after each block."""
        chance = random.Random(5)
        for _ in range(60):
            for _ in range(chance.randrange(4)):
                self.add(chance.randrange(2), payload(chance.randrange(1, 3000)))
            if chance.random() < 0.2:
                self.bytes[0][6:11] = b"\xa5" + struct.pack(">I", len(self.bytes[0]) - 1)
                self.write()
            self.put()
        mirror = self.mirrored()
        self.assertEqual(self.files_of(mirror), [bytes(it) for it in self.bytes])
        again = Mirror.begun(Folder(self.home), ROW)  # (a new start goes on there)
        self.addCleanup(again.close)
        self.assertEqual(again.known, mirror.known)

    def test_each_prefix_is_a_whole_file(self) -> None:
        for size in (1, 32768) * 30:
            self.add(0, payload(size))
            self.add(1, payload(size))
        self.bytes[0][6:11] = b"\xa5" + struct.pack(">I", 16)
        self.write()
        self.put()
        self.assertGreater(len(self.blocks), 2)
        mirror = Mirror.begun(Folder(self.home), ROW)
        self.addCleanup(mirror.close)
        for place, block in enumerate(self.blocks):
            self.assertLess(len(block.body), LARGEST + 100)
            mirror.apply(place, block, 0)
            for file, data in enumerate(self.files_of(mirror)):
                if len(data) > 16:
                    end = 16 + whole_in(data[16:])
                    self.assertEqual(data[end:], b"\0", f"after block {place} the file {file} doesn't end with a closed gate")
            if self.files_of(mirror)[0][6:7] == b"\xa5":
                self.assertEqual(place, len(self.blocks) - 1, "a slot leads to what isn't there yet")

    def test_what_is_half_written_is_left_out(self) -> None:
        self.add(0, payload(5))
        self.put()
        self.bytes[0] += struct.pack(">I", 7) + b"half"  # (behind the closed gate, as the program writes it before it opens it)
        self.write()
        count = len(self.blocks)
        self.put()
        self.assertEqual(len(self.blocks), count)
        self.assertEqual(whole_in(b"\xa5\0\0\0\x07half"), 0)

    def test_a_tail_that_was_not_put_is_cut(self) -> None:
        """A deposed leader's own bytes, and its own slot, are gone before anybody opens the files."""
        self.add(0, payload(5))
        self.put()
        mirror = self.mirrored()
        before = self.files_of(mirror)
        path = os.path.join(mirror.stores, STORE_FILES[0])
        with open(path, "r+b") as file:
            file.write(b"QZ23\x02T\xa5\0\0\0\x1a")
            file.seek(len(before[0]) - 1)
            file.write(payload(9) + b"\0")
        with self.assertLogs("kemtrua.hub", "WARNING") as logged:
            again = Mirror.begun(Folder(self.home), ROW)
        self.addCleanup(again.close)
        self.assertEqual(self.files_of(again), before)
        self.assertIn("dropped", logged.output[0])

    def test_stores_that_may_be_others(self) -> None:
        """Without a note of how far they are etcd's, or with fewer bytes, files aren't used."""
        self.put()
        self.mirrored()
        for harm in ("no-note", "shorter", "not-json"):
            note, store = os.path.join(self.home, FILE), os.path.join(self.home, "stores", ROW.stores, STORE_FILES[0])
            if harm == "no-note":
                os.unlink(note)
            elif harm == "shorter":
                os.truncate(store, 3)
            else:
                with open(note, "w") as file:
                    file.write("{")
            with self.assertLogs("kemtrua.hub", "WARNING"):
                self.assertEqual(self.files_of(self.mirrored()), [bytes(it) for it in self.bytes])
        aside = [name for name in os.listdir(os.path.join(self.home, "stores")) if "dropped" in name]
        self.assertEqual(len(aside), 3)

    def test_another_history(self) -> None:
        self.add(0, payload(5))
        self.put()
        mirror = self.mirrored()
        count, own = len(self.blocks), mirror.known.sum
        for place, block in ((count + 1, Block(1, own, b"")), (count, Block(1, own ^ 1, b""))):
            with self.assertRaises(BadShared):
                mirror.apply(place, block, 0)

    def test_a_merged_block_over_the_known_place(self) -> None:
        for size in range(1, 9):
            self.add(size % 2, payload(size))
            self.put()
        mirror = Mirror.begun(Folder(self.home), ROW)
        self.addCleanup(mirror.close)
        for place in range(4):
            mirror.apply(place, self.blocks[place], 0)
        whole = Block(len(self.blocks) - 2, self.blocks[2].before, b"".join(it.body for it in self.blocks[2:]))
        mirror.apply(2, whole, 0)
        self.assertEqual((mirror.known.place, mirror.known.sum), (len(self.blocks), self.blocks[-1].after))
        self.assertEqual(self.files_of(mirror), [bytes(it) for it in self.bytes])

    def test_another_team(self) -> None:
        self.put()
        self.mirrored()
        with self.assertRaises(BadFolder):
            Mirror.begun(Folder(self.home), replace(ROW, id="b" * 32))
        Team(ROW.id, 3).write(self.home)  # (a backup was restored to the folder)
        with self.assertRaisesRegex(BadFolder, "etcd has generation 1"):
            Mirror.begun(Folder(self.home), ROW)
        Mirror.begun(Folder(self.home), ROW, accepts=True).close()
        for name in ("../x", ".x", "a/b"):
            with self.assertRaises(BadShared):
                Mirror.begun(Folder(self.home), replace(ROW, stores=name), accepts=True)

    def test_the_note(self) -> None:
        known = Known("c1", "a" * 32, 2, "s", 5, 6, (7, 8), (b"\xff" * 16, bytes(16)), 9)
        known.write(self.home)
        self.assertEqual(Known.read(self.home), known)
        self.assertTrue(known.fits(replace(ROW, generation=2, stores="s")))
        same = replace(ROW, generation=2, stores="s")
        for other in (replace(same, generation=3), replace(same, stores="t"), replace(same, cluster="c2")):
            self.assertFalse(known.fits(other))


if __name__ == "__main__":
    unittest.main()
