"""Fills etcd until its quota is met, with what is nobody's, and makes room again, as the page on several hubs says."""
import asyncio

from kemtrua.etcd import Etcd, EtcdError, NoEtcd, NoSpace, delete, end_of, put
from kemtrua.etcdlink import Endpoint
from tests.etcds import Etcds

QUOTA = 1 << 27  # bytes of each etcd
FILLER, PIECE = b"/filler/", 1_000_000  # the keys of what is nobody's, and the bytes of each
TRIES = 2000  # asks that may fail, since all etcds have much to do


def fill(etcds: Etcds) -> None:
    """Puts until the quota is met."""
    asyncio.run(_with(etcds.endpoints, _fill))


def make_room(etcds: Etcds) -> None:
    """Deletes what was put, has old values go, gives the room back, and takes the alarm away."""
    asyncio.run(_with(etcds.endpoints, _delete))
    for number in range(etcds.count):
        asyncio.run(_with(f"http://127.0.0.1:{etcds.ports[number]}", lambda one: one.call("maintenance/defragment", {})))
    asyncio.run(_with(etcds.endpoints, _disarm))


async def _with(endpoints, work):
    one = Etcd(Endpoint.all_of(endpoints), within=30.0)
    try:
        for _ in range(TRIES):
            try:
                await work(one)
                return
            except NoSpace:
                raise
            except NoEtcd:
                await asyncio.sleep(0.2)
        raise SystemExit("hubs-test: etcd can't be asked")
    finally:
        one.close()


async def _fill(one: Etcd) -> None:
    for number in range(10 * QUOTA // PIECE):
        try:
            await one.transact([], [put(FILLER + b"%d" % number, bytes(PIECE))], [])
        except NoSpace:
            return
    raise SystemExit("hubs-test: etcd's quota is never met")


async def _delete(one: Etcd) -> None:
    done = await one.transact([], [delete(FILLER, end_of(FILLER))], [])
    try:
        await one.call("kv/compaction", {"revision": done.revision, "physical": True})
    except NoEtcd:
        raise
    except EtcdError:
        pass  # (a try whose answer was lost has done it)


async def _disarm(one: Etcd) -> None:
    for _ in range(TRIES):
        found = await one.call("maintenance/alarm", {"action": "GET"})
        if not (alarms := found.get("alarms", [])):
            return
        for alarm in alarms:
            await one.call("maintenance/alarm", {"action": "DEACTIVATE", "memberID": alarm["memberID"], "alarm": alarm["alarm"]})
        await asyncio.sleep(0.2)
    raise SystemExit("hubs-test: the alarm comes again and again")
