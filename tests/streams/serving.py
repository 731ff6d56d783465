"""The program over named pipes, as a router has it: one process, and of each stream the two pipes' other ends.

`Service` makes the pipes in a folder, starts the program and opens the pipes in the order of the words, each source before its sink. `send` keeps a line until
there is room for it; `pump` writes and reads, until what is waited for has come. Nothing here waits without an end: what takes longer than it may is `Late`.
"""
import fcntl
import os
import pathlib
import select
import signal
import subprocess
import sys
import time

sys.path.insert(0, str(pathlib.Path(__file__).resolve().parent.parent / "lines"))
from stanzas import SERVICE, is_notice


class Late(Exception):
    """What was waited for didn't come in time."""


class Stream:
    """One stream: what is still to be written to its source, and what came from its sink."""

    def __init__(self, folder, host):
        self.host = host
        self.source_path, self.sink_path = f"{folder}/{host}.in", f"{folder}/{host}.out"
        self.source = self.sink = None
        self.unsent, self.got, self.count = bytearray(), bytearray(), 0

    def make(self):
        for path in (self.source_path, self.sink_path):
            if not os.path.exists(path):
                os.mkfifo(path)

    def open(self):
        """Waits until the program opens its ends, first that of the source."""
        self.source = os.open(self.source_path, os.O_WRONLY)
        self.sink = os.open(self.sink_path, os.O_RDONLY)
        for end in (self.source, self.sink):
            os.set_blocking(end, False)
        fcntl.fcntl(self.sink, fcntl.F_SETPIPE_SZ, 65536)

    def send(self, *lines):
        self.unsent += b"".join(line + b"\n" for line in lines)

    def write(self):
        del self.unsent[: os.write(self.source, self.unsent[:65536])]

    def read(self):
        """Takes what is there. At the sink's end it is closed."""
        piece = os.read(self.sink, 1 << 20)
        self.got += piece
        self.count += piece.count(b"\n")
        if not piece:
            os.close(self.sink)
            self.sink = None

    def end_source(self):
        if self.source is not None:
            os.close(self.source)
            self.source = None

    def lines(self):
        """The whole lines that came."""
        return bytes(self.got).split(b"\n")[:-1]

    def replies(self):
        return [line for line in self.lines() if not is_notice(line)]

    def notices(self):
        return [line for line in self.lines() if is_notice(line)]


def late(*_):
    raise Late("the program didn't open its pipes")


class Service:
    """The program that serves these hosts over the store in the folder."""

    def __init__(self, program, folder, hosts, seconds=60):
        self.streams = [Stream(folder, host) for host in hosts]
        words = [str(program), "serve", "--service", SERVICE, "--store", f"{folder}/store"]
        for stream in self.streams:
            stream.make()
            words += [stream.host, stream.source_path, stream.sink_path]
        self.child = subprocess.Popen(words, stdin=subprocess.DEVNULL, stdout=subprocess.PIPE)
        before = signal.signal(signal.SIGALRM, late)
        signal.alarm(seconds)
        try:
            for stream in self.streams:
                stream.open()
        finally:
            signal.alarm(0)
            signal.signal(signal.SIGALRM, before)

    def __enter__(self):
        return self

    def __exit__(self, *_):
        if self.child.poll() is None:
            self.child.kill()
        self.child.wait()
        self.child.stdout.close()
        for stream in self.streams:
            stream.end_source()
            if stream.sink is not None:
                os.close(stream.sink)

    def step(self, milliseconds, deaf):
        """Writes and reads once what can be written and read; of the deaf streams nothing is read."""
        poll, ends = select.poll(), {}
        for stream in self.streams:
            if stream.source is not None and stream.unsent:
                poll.register(stream.source, select.POLLOUT)
                ends[stream.source] = stream.write
            if stream.sink is not None and stream not in deaf:
                poll.register(stream.sink, select.POLLIN)
                ends[stream.sink] = stream.read
        for end, _ in poll.poll(milliseconds):
            ends[end]()

    def pump(self, until, seconds, deaf=(), what="what was waited for"):
        """Writes and reads until the condition holds."""
        end = time.monotonic() + seconds
        while not until():
            if time.monotonic() > end:
                raise Late(f"{what} didn't come within {seconds} s")
            self.step(200, deaf)

    def end(self, seconds=60):
        """Ends each source, reads each sink to its end, and gives the status and the report."""
        for stream in self.streams:
            stream.end_source()
        self.pump(lambda: all(stream.sink is None for stream in self.streams), seconds, what="the end")
        report = self.child.stdout.read()
        return self.child.wait(timeout=seconds), report
