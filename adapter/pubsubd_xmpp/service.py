"""One run of `pubsubd serve`: its pipes, its process, its end."""

from __future__ import annotations

import asyncio
import ctypes
import errno
import os
import signal
import subprocess
import time
from collections.abc import Callable
from pathlib import Path

from .config import Config
from .log import say
from .spool import Spool, Watch
from .stream import Stream

_LIBC = ctypes.CDLL(None)
USAGE, STREAM_FAULT, STORE_FAULT, DAMAGED, FULL, MEMORY, LONG, OPEN_FAULT, OCCUPIED = range(2, 11)
# After these a start can't help: a person has to look.
FOR_A_PERSON = (USAGE, DAMAGED, FULL, OPEN_FAULT, OCCUPIED)
MEANINGS = {
    0: "ended in good order",
    USAGE: "doesn't know the words that it was started with: the program and the adapter are of different versions",
    STREAM_FAULT: "couldn't read or write a stream: look whether the disk of the run folder is full",
    STORE_FAULT: "the disk of the store failed: look whether it is full",
    DAMAGED: "the store is damaged: keep the file, and put a backup in its place",
    FULL: "the store is full: stop the adapter and compact it by hand, as pubsubd(1) says",
    MEMORY: "had not enough memory",
    LONG: "took as many bytes as a run may take",
    OPEN_FAULT: "couldn't open a file: the store is held by another program, or may not be read and written by this user",
    OCCUPIED: "the file for the compacted store is there already: remove it",
}


def meaning(status: int) -> str:
    if status < 0:
        return f"killed by {signal.Signals(-status).name}"
    return MEANINGS.get(status, "no status of this program")


def die_with(parent: int) -> Callable[[], None]:
    """For a child before it begins: it is killed when its parent ends, however that ends (PR_SET_PDEATHSIG).

    The service bears that as it bears any crash. Left alone, one that still waits for its pipes would hold the store for ever.
    """

    def arrange() -> None:
        _LIBC.prctl(1, signal.SIGKILL)
        if os.getppid() != parent:  # it has ended already
            os._exit(1)

    return arrange


class Process:
    """A child whose end is seen without waiting, and whose words go to the log."""

    def __init__(self, words: list[str], name: str, complained: Callable[[], None] = lambda: None):
        """`complained` is called when it writes a line to standard error."""
        self._loop = asyncio.get_running_loop()
        self._name, self._complained = name, complained
        self.ended: asyncio.Future[int] = self._loop.create_future()
        self._child = subprocess.Popen(
            words,
            stdin=subprocess.DEVNULL,
            stdout=subprocess.PIPE,
            stderr=subprocess.PIPE,
            process_group=0,
            preexec_fn=die_with(os.getpid()),
        )
        self.pid = self._child.pid
        self._rests: dict[int, bytes] = {}
        for pipe in (self._child.stdout, self._child.stderr):
            assert pipe is not None
            os.set_blocking(pipe.fileno(), False)
            self._rests[pipe.fileno()] = b""
            self._loop.add_reader(pipe.fileno(), self._read, pipe.fileno())
        self._pidfd = os.pidfd_open(self.pid)
        self._loop.add_reader(self._pidfd, self._on_end)

    def _read(self, fd: int) -> bool:
        try:
            data = os.read(fd, 65536)
        except BlockingIOError:
            return False
        *lines, self._rests[fd] = (self._rests[fd] + data).split(b"\n")
        for line in lines:
            say(self._name, says=line.decode(errors="replace"))
        if lines and self._child.stderr is not None and fd == self._child.stderr.fileno():
            self._complained()
        if not data:
            self._loop.remove_reader(fd)
        return bool(data)

    def _on_end(self) -> None:
        self._loop.remove_reader(self._pidfd)
        os.close(self._pidfd)
        for pipe in (self._child.stdout, self._child.stderr):
            assert pipe is not None
            while self._read(pipe.fileno()):
                pass
            self._loop.remove_reader(pipe.fileno())
            pipe.close()
        self.ended.set_result(self._child.wait())

    def kill(self) -> None:
        if not self.ended.done():
            self._child.kill()


class Run:
    """A run of the service. The folder is the run's own, so nothing of an earlier run lies in its pipes."""

    def __init__(self, config: Config, folder: Path, watch: Watch):
        self._config, self._folder, self._watch = config, folder, watch
        self.streams: list[Stream] = []
        self.process: Process | None = None
        self._watched: list[int] = []
        self._complained: Callable[[], None] = lambda: None

    def make(self, wake: Callable[[Stream, bool], None], before_cut: Callable[[], None], complained: Callable[[], None]) -> None:
        """Makes the pipes and the sinks. `wake` is told the stream that was written to, and `complained` called when the program says what failed."""
        self._complained = complained
        self._folder.mkdir(mode=0o700)
        for at, host in enumerate(self._config.hosts):
            os.mkfifo(self._folder / f"{at}.in", 0o600)
            stream = Stream(host, Spool(self._folder / f"{at}.out", before_cut), self._config.in_flight)
            self.streams.append(stream)
            self._watched.append(self._watch.add(stream.spool.path, lambda closed, stream=stream: wake(stream, closed)))
        (self._folder / "hosts").write_text("\n".join(self._config.hosts), encoding="utf-8")

    async def start(self) -> bool:
        """Starts the program and opens its pipes in the order of its words. False where it ended first."""
        words = [*self._config.program, "serve", "--service", self._config.host, "--store", str(self._config.store)]
        for at, host in enumerate(self._config.hosts):
            words += [host, str(self._folder / f"{at}.in"), str(self._folder / f"{at}.out")]
        began = time.monotonic()
        try:
            self.process = Process(words, "service", self._complained)
        except OSError as why:
            say("the service can't be started", program=self._config.program[0], why=why.strerror)
            return False
        for at, stream in enumerate(self.streams):
            fd = await self._open_pipe(self._folder / f"{at}.in")
            if fd is None:
                return False
            stream.begin(fd)
        say("service started", pid=self.process.pid, seconds=f"{time.monotonic() - began:.3f}")
        return True

    async def _open_pipe(self, path: Path) -> int | None:
        """Opens the pipe once the service has; None where it ended instead."""
        assert self.process is not None
        pause = 0.002
        while not self.process.ended.done():
            try:
                return os.open(path, os.O_WRONLY | os.O_NONBLOCK | os.O_CLOEXEC)
            except OSError as why:
                if why.errno != errno.ENXIO:
                    raise
            await asyncio.sleep(pause)
            pause = min(pause * 1.2, 0.05)
        return None

    def end_inputs(self) -> None:
        for stream in self.streams:
            stream.end_input()

    async def end(self, seconds: float) -> int:
        """Ends the inputs and waits for the status; a service that doesn't end in that time is killed, which its store bears."""
        assert self.process is not None
        self.end_inputs()
        try:
            return await asyncio.wait_for(asyncio.shield(self.process.ended), seconds)
        except TimeoutError:
            say("service killed", why=f"it didn't end within {seconds:g} s")
            self.process.kill()
            return await self.process.ended

    def forget(self) -> None:
        """The process is gone: what it wrote is all that there will be."""
        self.end_inputs()
        for number in self._watched:
            self._watch.drop(number)
        for at in range(len(self.streams)):
            (self._folder / f"{at}.in").unlink(missing_ok=True)
        for stream in self.streams:
            stream.over = True
