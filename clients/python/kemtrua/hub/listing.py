"""What the rows of the store are now, from a copy of its files: nobody waits while it is made and read."""
from __future__ import annotations

import asyncio
import os
import shutil
import tempfile
from collections.abc import Callable

from ..errors import HubRefused
from ..program import STORE_FILES


class Listing:
    """One list at a time is made: each takes as much as an opening."""

    def __init__(self, stores: Callable[[], str], program: str):
        self._stores, self._program = stores, program
        self._one = asyncio.Lock()

    async def rows(self) -> bytes:
        """The lines of `qz_sched list`."""
        try:
            async with self._one:
                with tempfile.TemporaryDirectory(prefix="kemtrua-list-") as folder:
                    await asyncio.to_thread(self._copy_to, folder)
                    return await self._rows_in(folder)
        except OSError as error:
            raise HubRefused("failed", f"the store can't be copied to be listed: {error.strerror}") from None

    def _copy_to(self, folder: str) -> None:
        """Copies the files while the program works on them. A file only grows at its end, and a commit that is in the middle isn't in the copy."""
        stores = self._stores()
        for name in STORE_FILES:
            shutil.copy(os.path.join(stores, name), folder)

    async def _rows_in(self, folder: str) -> bytes:
        pipe = asyncio.subprocess.PIPE
        listing = await asyncio.create_subprocess_exec(self._program, "list", cwd=folder, stdout=pipe, stderr=pipe)
        try:
            rows, said = await listing.communicate()
        finally:
            if listing.returncode is None:  # (the hub ends, or whoever asked is gone)
                listing.kill()
        if listing.returncode:
            raise HubRefused("failed", f"qz_sched list ended with status {listing.returncode}: {said.decode(errors='replace')}")
        return rows
