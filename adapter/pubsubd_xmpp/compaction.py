"""A store is compacted between two runs: the program writes a new one, it is looked at, and put in the old one's place at once."""

from __future__ import annotations

import contextlib
import datetime
import os
import time

from .config import Config, When
from .kept import Kept
from .log import say
from .service import Process, meaning

_HEADER = b"PUBSUBJ"  # and a version
_BASE = "compacted bytes"


def next_time(at: When, now: datetime.datetime) -> datetime.datetime:
    """The first time of that kind after now."""
    day = now.replace(hour=at.hour, minute=at.minute, second=0, microsecond=0)
    if at.day is not None:
        day += datetime.timedelta((at.day - now.weekday()) % 7)
    if day <= now:
        day += datetime.timedelta(1 if at.day is None else 7)
    return day


class Compaction:
    """When the store is worth it, and the deed."""

    def __init__(self, config: Config, kept: Kept):
        self._config, self._kept = config, kept
        self.store = config.store
        self.new = config.state / "store.new"
        self.before = config.state / "store.before"
        self._process: Process | None = None
        self._failed_at = 0  # the store's size when it last couldn't be compacted

    def size(self) -> int:
        try:
            return self.store.stat().st_size
        except FileNotFoundError:
            return 0

    def is_due(self) -> bool:
        """Whether the store is many times what its rows take.

        The program tells no such number. What a store took when it was last compacted is what its rows took then, and one look at the file's size tells the rest.
        """
        base = self._kept.fact(_BASE) or 0
        return self.size() >= max(self._config.compact_bytes + self._config.compact_ratio * base, 2 * self._failed_at)

    async def compact(self) -> bool:
        """Compacts the store, which nobody serves. Where it fails, the store stands as it was."""
        size, began = self.size(), time.monotonic()
        if size == 0:
            return False
        try:
            why = await self._write_new()
            if not why:
                self._put_in_place()
        except OSError as fault:
            why = str(fault)
        if why:
            self._failed_at = size
            self.clean()
            say("not compacted", why=why)
            return False
        self._failed_at = 0
        self._kept.keep_fact(_BASE, self.size())
        say("compacted", bytes_before=size, bytes_now=self.size(), seconds=f"{time.monotonic() - began:.3f}")
        return True

    async def _write_new(self) -> str:
        """Writes the new store, and has it on the disk. What went wrong, or nothing."""
        self.new.unlink(missing_ok=True)
        self._process = Process([*self._config.program, "compact", str(self.store), str(self.new)], "compact")
        status = await self._process.ended
        self._process = None
        if status != 0:
            return f"status {status}: {meaning(status)}"
        return "" if self._is_store() else "what was written is no store"

    def give_up(self) -> None:
        """A compaction that runs is ended: the adapter stops."""
        if self._process is not None:
            self._process.kill()

    def _is_store(self) -> bool:
        with open(self.new, "rb") as file:
            is_store = file.read(len(_HEADER)) == _HEADER
            os.fsync(file.fileno())
        return is_store

    def _put_in_place(self) -> None:
        """There is a whole store under the store's name at every moment, and the old one is kept until the new one has been opened."""
        self.before.unlink(missing_ok=True)
        os.link(self.store, self.before)
        os.replace(self.new, self.store)
        folder = os.open(self.store.parent, os.O_RDONLY)
        try:
            os.fsync(folder)
        finally:
            os.close(folder)

    def opened(self) -> None:
        """A run opened the store: the old one isn't needed any more."""
        with contextlib.suppress(OSError):
            self.before.unlink()

    def refused(self) -> bool:
        """A run found the store damaged. Whether there was one from before the compaction, which is put back."""
        if not self.before.exists():
            return False
        os.replace(self.before, self.store)
        say("the store from before the compaction is put back")
        return True

    def clean(self) -> None:
        """What an adapter that was killed in the middle left."""
        self.new.unlink(missing_ok=True)
