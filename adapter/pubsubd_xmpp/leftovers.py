"""What an adapter that was killed left in the run folder: the sinks of its last run, of which a part may not have reached the server."""

from __future__ import annotations

import asyncio
import fcntl
import os
import shutil
from pathlib import Path

from .kept import Kept
from .log import say
from .names import bare_of
from .notices import Notices
from .spool import Spool
from .stream import Stream


async def wait_for_store(store: Path, seconds: float) -> bool:
    """Waits until no program holds the store. A service whose adapter was killed is killed with it, and takes a moment to go."""
    until = asyncio.get_running_loop().time() + seconds
    while True:
        try:
            fd = os.open(store, os.O_RDWR | os.O_CLOEXEC)
        except OSError:  # it isn't there, or can't be opened, which the service then says
            return True
        try:
            fcntl.flock(fd, fcntl.LOCK_EX | fcntl.LOCK_NB)
            return True
        except BlockingIOError:
            if asyncio.get_running_loop().time() > until:
                return False
        finally:
            os.close(fd)
        await asyncio.sleep(0.05)


def runs_in(folder: Path) -> list[Path]:
    """The folders of earlier runs, the oldest first."""
    found = [one for one in folder.glob("run-*") if one.name[4:].isdigit()]
    return sorted(found, key=lambda one: int(one.name[4:]))


def _raise_numbers(spool: Spool, kept: Kept) -> None:
    """Takes the numbers of the notices that the server was given into account, and leaves the spool at the first line that it wasn't."""
    notices = Notices()
    spool.skip_cut()
    while spool.at < spool.given:
        lines = spool.lines()
        if not lines:
            break
        for line, end in lines:
            if end > spool.given:
                spool.at = end - len(line) - 1
                spool.forget_half()
                return
            notice = notices.read(line)
            if notice is not None:
                kept.raise_to(bare_of(notice.to), notice.number)


def take_over(folder: Path, hosts: tuple[str, ...], kept: Kept) -> list[Stream]:
    """The streams of earlier runs that have something for the server, as streams that are over."""
    streams: list[Stream] = []
    for run in runs_in(folder):
        before = len(streams)
        try:
            names = (run / "hosts").read_text(encoding="utf-8").split("\n")
        except OSError:
            names = []
        for at, host in enumerate(names):
            if host in hosts and (run / f"{at}.out").exists():
                stream = Stream(host, Spool(run / f"{at}.out", kept.flush), 1)
                _raise_numbers(stream.spool, kept)
                stream.over = stream.inherited = True
                streams.append(stream)
        if len(streams) == before:
            shutil.rmtree(run, ignore_errors=True)
    if streams:
        kept.flush()
        say("taken over", streams=len(streams), what="what the last adapter didn't give to the server")
    return streams
