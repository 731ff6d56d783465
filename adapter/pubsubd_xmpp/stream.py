"""One stream of one run of the service: lines into a named pipe, and what comes back matched to what was asked."""

from __future__ import annotations

import asyncio
import os
import time
from collections import deque
from collections.abc import Callable

from .asked import Asked
from .spool import Spool

# What the service takes: who writes more lines than this ahead stops reading from the server.
MANY_LINES = 20000


class Stream:
    """The stream of a host, from the start of a run until all that it wrote was read.

    A line is written whole or not counted. At most `in_flight` requests are written and not answered; the others wait here, and if the run
    ends meanwhile, they go to the next one, since the service never saw them.
    """

    def __init__(self, host: str, spool: Spool, in_flight: int):
        self.host, self.spool = host, spool
        self.open: deque[Asked] = deque()
        self.out: deque[tuple[bytes, Asked | None]] = deque()
        self.over = False  # the run has ended, and the spool grows no more
        self.inherited = False  # of a run of an earlier adapter, whose requests nobody knows
        self.broken = False  # the service reads this stream no more
        self.lines = 0
        self.read_at = 0.0  # when it was last read
        self._in_flight = in_flight
        self._fd = -1
        self._part = 0
        self._watched = False
        self._loop = asyncio.get_running_loop()

    def begin(self, fd: int) -> None:
        """The pipe is open."""
        os.set_blocking(fd, False)
        self._fd = fd

    @property
    def is_open(self) -> bool:
        return self._fd >= 0

    def put(self, line: bytes, asked: Asked | None) -> None:
        """A line for the service; `flush` writes."""
        self.out.append((line, asked))

    def flush(self) -> None:
        """Writes what may be written and finds room."""
        if self._fd < 0 or self.broken:
            return
        blocked = False
        try:
            while self.out and len(self.open) < self._in_flight:
                line, asked = self.out[0]
                sent = os.write(self._fd, line[self._part :] if self._part else line)
                self._part += sent
                if self._part < len(line):
                    blocked = True
                    break
                self._written(asked)
        except BlockingIOError:
            blocked = True
        except OSError:
            self.broken = True
        self._watch(blocked and not self.broken)

    def _written(self, asked: Asked | None) -> None:
        self.out.popleft()
        self._part = 0
        self.lines += 1
        if asked is not None:
            asked.line, asked.since = self.lines, time.monotonic()
            self.open.append(asked)

    def _watch(self, wanted: bool) -> None:
        if wanted != self._watched and self._fd >= 0:
            self._watched = wanted
            if wanted:
                self._loop.add_writer(self._fd, self.flush)
            else:
                self._loop.remove_writer(self._fd)

    def answered(self, name: str | None = None) -> Asked | None:
        """The request whose reply came, which has its id: replies come in the order of the lines."""
        if not self.open or name not in (None, self.open[0].head.get("id")):
            return None
        asked = self.open.popleft()
        if self.out:
            self.flush()
        return asked

    def refused(self, line: int) -> Asked | None:
        """The request of a line that the service refused, if a request stood in it."""
        if self.open and self.open[0].line == line:
            return self.answered()
        return None

    def end_input(self) -> None:
        """No more lines come in this run."""
        if self._fd >= 0:
            self._watch(False)
            os.close(self._fd)
            self._fd = -1

    def take_back(self, keep: Callable[[bytes, Asked | None], None]) -> None:
        """Hands over the lines that weren't written whole: nothing of them has taken effect. One that lacks its newline alone is a line."""
        if self.out and self._part >= len(self.out[0][0]) - 1:
            self._written(self.out[0][1])
        while self.out:
            keep(*self.out.popleft())
        self._part = 0
