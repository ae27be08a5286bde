"""The client of etcd, against real ones."""
from __future__ import annotations

import asyncio
import os
import shutil
import signal
import socket
import threading
import unittest
from collections.abc import Callable, Coroutine
from typing import Any

from kemtrua import etcd
from kemtrua.errors import BadSettings
from kemtrua.etcd import Compacted, Etcd, EtcdNotTrusted, NoEtcd, NoSpace
from kemtrua.etcdlink import Endpoint
from tests.etcds import ETCD, Etcds
from tests.helpers import WithFolder
from tests.test_tls import make_authority, make_certificate

Work = Callable[[Etcd], Coroutine[Any, Any, None]]


class Endpoints(unittest.TestCase):
    def test_read(self) -> None:
        found = Endpoint.all_of("https://a:2379, https://[::1],http://127.0.0.1:5")
        self.assertEqual([str(it) for it in found], ["https://a:2379", "https://[::1]:2379", "http://127.0.0.1:5"])

    def test_bad_ones(self) -> None:
        for text in ("a:2379", "ftp://a", "https://", "https://a:b", "https://a/x", "http://a:2379", "https://me@a"):
            with self.assertRaises(BadSettings, msg=text):
                Endpoint.parse(text)

    def test_tls_wants_certificates(self) -> None:
        with self.assertRaises(BadSettings):
            Etcd(Endpoint.all_of("https://a"))

    def test_nobody_there(self) -> None:
        async def work() -> None:
            with self.assertRaisesRegex(NoEtcd, "no etcd answers at http://127.0.0.1:1: "):
                await Etcd(Endpoint.all_of("http://127.0.0.1:1")).get(b"a")

        asyncio.run(work())

    def test_somebody_else_there(self) -> None:
        """Whoever speaks something else, or nothing, is no etcd."""
        with socket.socket() as listening:
            listening.bind(("127.0.0.1", 0))
            listening.listen()
            one = Etcd(Endpoint.all_of(f"http://127.0.0.1:{listening.getsockname()[1]}"), within=0.3)

            def answer() -> None:
                other, _ = listening.accept()
                with other:
                    other.recv(1000)
                    other.sendall(b"SSH-2.0-x\r\n\r\n")

            answering = threading.Thread(target=answer)
            answering.start()
            for pattern in ("doesn't speak HTTP", "in time"):
                with self.assertRaisesRegex(NoEtcd, pattern):
                    asyncio.run(one.call("kv/range", {}))
            answering.join()


@unittest.skipUnless(ETCD, "no etcd is on this machine")
class WithEtcd(WithFolder):
    def asked(self, work: Work, count: int = 1, more: tuple[str, ...] = (), within: float = 5.0) -> Etcds:
        found = Etcds(self.folder, count, more)
        self.addCleanup(found.end)
        found.wait()

        async def all_of_it() -> None:
            one = Etcd(Endpoint.all_of(found.endpoints), within=within)
            try:
                await work(one)
            finally:
                one.close()

        self.etcds = found
        asyncio.run(all_of_it())
        return found

    def test_pairs_and_pages(self) -> None:
        async def work(one: Etcd) -> None:
            for number in range(7):
                done = await one.transact([etcd.is_created(b"k%d" % number, 0)], [etcd.put(b"k%d" % number, bytes([number] * 3))], [])
                self.assertTrue(done.held)
            pages = [page async for page in _small_pages(one)]
            self.assertEqual([len(page.pairs) for page in pages], [3, 3, 1])
            self.assertEqual([pair.value for page in pages for pair in page.pairs], [bytes([number] * 3) for number in range(7)])
            self.assertEqual(len({page.revision for page in pages}), 1)
            self.assertIsNone(await one.get(b"other"))
            self.assertNotEqual(await one.size(), (0, 0))
            self.assertEqual(await one.alarms(), [])

        async def _small_pages(one: Etcd) -> Any:
            key, revision = b"k", 0
            while True:
                page = await one.range(key, b"l", revision, 3)
                yield page
                if not page.more:
                    return
                key, revision = page.pairs[-1].key + b"\0", page.revision

        self.asked(work)

    def test_guarded(self) -> None:
        """A transaction whose comparison fails does nothing, and tells what is there."""
        async def work(one: Etcd) -> None:
            first = await one.transact([etcd.is_created(b"a", 0)], [etcd.put(b"a", b"1")], [])
            other = await one.transact([etcd.is_created(b"a", 0)], [etcd.put(b"a", b"2")], [etcd.get(b"a"), etcd.get(b"b")])
            self.assertEqual((first.held, other.held), (True, False))
            self.assertEqual([[pair.value for pair in found] for found in other.found], [[b"1"], []])
            self.assertEqual(other.found[0][0].created, first.revision)
            await one.transact([etcd.is_created(b"a", first.revision)], [etcd.delete(b"a")], [])
            self.assertIsNone(await one.get(b"a"))

        self.asked(work)

    def test_leases(self) -> None:
        async def work(one: Etcd) -> None:
            lease = await one.grant(60)
            await one.transact([], [etcd.put(b"a", b"1", lease)], [])
            self.assertEqual(await one.keep_alive(lease), 60)
            await one.revoke(lease)
            self.assertIsNone(await one.get(b"a"))
            self.assertEqual(await one.keep_alive(lease), 0)
            with self.assertRaises(etcd.EtcdError):
                await one.revoke(lease)

        self.asked(work)

    def test_watch(self) -> None:
        async def work(one: Etcd) -> None:
            done = await one.transact([], [etcd.put(b"a/1", b"x")], [])
            seen = one.watch(b"a/", etcd.end_of(b"a/"), done.revision, 2.0)
            self.assertEqual([(it.pair.key, it.pair.value) for it in await _first(seen)], [(b"a/1", b"x")])
            await one.transact([], [etcd.delete(b"a/1"), etcd.put(b"b", b"not watched")], [])
            self.assertEqual([(it.pair.key, it.is_gone) for it in await _first(seen)], [(b"a/1", True)])
            with self.assertRaisesRegex(NoEtcd, "in time"):
                await anext(seen)

        async def _first(seen: Any) -> Any:
            while not (found := await anext(seen)):
                pass
            return found

        self.asked(work)

    def test_what_was_compacted(self) -> None:
        async def work(one: Etcd) -> None:
            first = await one.transact([], [etcd.put(b"a", b"1")], [])
            last = await one.transact([], [etcd.put(b"a", b"2")], [])
            await one.call("kv/compaction", {"revision": last.revision})
            with self.assertRaises(Compacted):
                await one.range(b"a", revision=first.revision)
            with self.assertRaises(Compacted):
                async for _ in one.watch(b"a", b"b", first.revision, 5.0):
                    pass

        self.asked(work)

    def test_the_quota(self) -> None:
        """The put that meets the quota is unknown, and is looked at. Reads and leases go on."""
        async def work(one: Etcd) -> None:
            lease = await one.grant(60)
            with self.assertRaisesRegex(NoSpace, "quota is met"):
                for number in range(200):
                    await one.transact([], [etcd.put(b"k%03d" % number, bytes(100_000))], [])
            self.assertIn("NOSPACE", await one.alarms())
            self.assertTrue((await one.range(b"k", b"l")).pairs)
            self.assertEqual(await one.keep_alive(lease), 60)

        self.asked(work, more=("--quota-backend-bytes", "2000000"))

    def test_another_endpoint(self) -> None:
        """Where one is stopped or killed, another one is asked next."""
        async def work(one: Etcd) -> None:
            await one.transact([], [etcd.put(b"a", b"1")], [])
            for trouble in (signal.SIGSTOP, signal.SIGKILL):
                self.etcds.signal(0, trouble)
                found = None
                for _ in range(20):
                    try:
                        found = await one.get(b"a")
                        break
                    except NoEtcd:
                        await asyncio.sleep(0.2)
                self.assertEqual(found and found.value, b"1")
                if trouble is signal.SIGSTOP:
                    self.etcds.signal(0, signal.SIGCONT)

        self.asked(work, count=3, within=1.0)


@unittest.skipUnless(ETCD and shutil.which("openssl"), "etcd and openssl are wanted")
class OverTls(WithFolder):
    def test_certificates(self) -> None:
        for authority in ("team", "stranger"):
            make_authority(self.folder, authority)
        own, hub, other = (make_certificate(self.folder, *it) for it in (("team", "etcd"), ("team", "hub"), ("stranger", "hub")))
        found = Etcds(self.folder, tls=(own.certificate, own.key, own.authority))
        self.addCleanup(found.end)
        found.wait()
        endpoints = Endpoint.all_of(found.endpoints)

        async def work() -> None:
            await Etcd(endpoints, hub, 5.0).transact([], [etcd.put(b"a", b"1")], [])
            with self.assertRaisesRegex(EtcdNotTrusted, "isn't trusted"):
                await Etcd(endpoints, other, 5.0).get(b"a")
            stranger = type(other)(other.certificate, other.key, os.path.join(self.folder, "team.pem"))
            with self.assertRaisesRegex(NoEtcd, "trust|no etcd answers"):
                await Etcd(endpoints, stranger, 5.0).get(b"a")

        asyncio.run(work())


if __name__ == "__main__":
    unittest.main()
