"""Many small blocks become few large ones, since each key takes room in etcd beside its value."""
from __future__ import annotations

import asyncio

from .. import clock, hooks, logs
from ..etcd import EtcdError, delete, put
from .layout import LARGEST, Block, Keys
from .putting import Putting

log = logs.logger("kemtrua.hub")

AFTER = 500  # blocks that aren't merged, from which on they are
LOOK_AGAIN = 20.0  # seconds
LEAVE = 16  # of the last blocks, which stay as they are


async def merge_at_times(putting: Putting) -> None:
    """To the end of a reign."""
    merged = 0  # all before this place were looked at
    while True:
        await asyncio.sleep(hooks.number("merge_look", LOOK_AGAIN))
        stores, place = putting.known.stores, putting.known.place
        try:
            if place - merged >= hooks.number("merge_after", AFTER) or place < merged:
                merged = await _merge(putting, stores, merged if place >= merged else 0, place - LEAVE)
        except EtcdError as error:
            log.warning("the blocks in etcd weren't merged: %s", error)


async def _merge(putting: Putting, stores: str, begin: int, end: int) -> int:
    """Merges the blocks of these places, as far as they fit in blocks of the largest size. Gives the place from which on some are left."""
    keys, etcd = putting.reign.keys, putting.reign.etcd
    begun, count, at = clock.uptime(), 0, begin
    first, blocks = begin, list[Block]()
    async for page in etcd.pages(keys.block(stores, begin), keys.block(stores, max(end, begin))):
        for pair in page.pairs:
            place, block = keys.place_of(stores, pair.key), Block.of(pair.value)
            if place is None:
                continue
            if blocks and sum(len(it.body) for it in blocks) + len(block.body) > LARGEST:
                count += await _put(putting, keys, stores, first, blocks)
                first, blocks = place, []
            elif not blocks:
                first = place
            blocks.append(block)
            at = place + block.covers
    count += await _put(putting, keys, stores, first, blocks)
    if count:
        log.info("%d blocks in etcd became fewer, in %.2f s", count, clock.uptime() - begun)
    return first if blocks else at


async def _put(putting: Putting, keys: Keys, stores: str, first: int, blocks: list[Block]) -> int:
    """Puts one block in place of these. Gives how many there were. A standby that is in their midst reads on from the new one."""
    if len(blocks) < 2 or putting.known.stores != stores:
        return 0
    covers = sum(it.covers for it in blocks)
    whole = Block(covers, blocks[0].before, b"".join(it.body for it in blocks))
    then = [put(keys.block(stores, first), whole.encoded()), delete(keys.block(stores, first + 1), keys.block(stores, first + covers))]
    await putting.reign.etcd.transact(putting.reign.compares, then, [])
    return len(blocks)
