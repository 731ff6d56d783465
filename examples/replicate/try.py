#!/usr/bin/env python3
"""Replicates a service while people publish, and kills one part after another.

Usage: try.py PROGRAM [SECONDS]

PROGRAM is pubsubd. It needs Debian's packages rabbitmq-server and python3-pika, and runs as any user, in a folder of its own, for so many seconds (60). One service is
written to all the time: each publish puts a new item in the place of the one before, and it is asked for the item each time, so that its replies are known
at each of its entries. put.py and take.py replicate it; one of these is killed every few seconds: put.py, take.py with its follower, the follower, a node of
the engine, which is started again at the next such turn. Whatever the follower answers must be what the first service answered at some moment, and never an
earlier one than the answer before it in the same life. At the end the writing stops, and the follower must come to the last answer.
"""
import os
import pathlib
import random
import signal
import subprocess
import sys
import tempfile
import threading
import time

HERE = pathlib.Path(__file__).resolve().parent
sys.path.insert(0, str(HERE.parent.parent / "tests" / "lines"))
sys.path.insert(0, str(HERE))
import engine
import stanzas

SENDER = "ann@a.example/1"
ASK = stanzas.iq(SENDER, 1, "get", "pubsub:P(items{node=news})")


class Piped:
    """A process that answers each line of one pipe by a line of another."""

    def __init__(self, room, name, words):
        self.source, self.sink = f"{room}/{name}.in", f"{room}/{name}.out"
        for pipe in (self.source, self.sink):
            if not os.path.exists(pipe):
                os.mkfifo(pipe)
        self.run = subprocess.Popen([str(word) for word in words(self.source, self.sink)])
        self.give, self.take = open(self.source, "wb", buffering=0), open(self.sink, "rb")

    def ask(self, line):
        """Returns the reply, or nothing where the process is gone."""
        try:
            self.give.write(line + b"\n")
            reply = self.take.readline()
        except BrokenPipeError:
            return None
        return reply if reply.endswith(b"\n") else None

    def close(self):
        self.give.close()
        self.take.close()


class Primary:
    """The service that is written to, with all that it has answered."""

    def __init__(self, program, room):
        self.store = f"{room}/store"
        self.piped = Piped(room, "first", lambda source, sink: [program, "serve", "--service", "pubsub.example", "--store", self.store, "a.example", source, sink])
        self.answers = [self.piped.ask(ASK)]
        self.piped.ask(stanzas.create(SENDER, 1, "news"))
        self.answers.append(self.piped.ask(ASK))
        self.lock = threading.Lock()
        self.written, self.fault = 0, b""

    def publish(self):
        """Publishes once more, and returns whether that was answered by a result."""
        self.written += 1
        made = self.piped.ask(stanzas.iq(SENDER, self.written, "set", 'pubsub:P(publish{node=news}(item{id=one}(entry:urn:t("%d"))))' % self.written))
        answer = self.piped.ask(ASK)
        if made is None or answer is None or b'"result"' not in made:
            self.fault = made
            return False
        with self.lock:
            self.answers.append(answer)
        return True

    def end(self):
        self.piped.close()
        self.piped.run.wait()


def started(words):
    return subprocess.Popen([str(word) for word in words])


class Follower:
    """take.py and its follower, in one life after another. Each life's answers are looked at."""

    def __init__(self, program, room, primary, ports):
        self.words = lambda source, sink: [sys.executable, HERE / "take.py", program, "feed", "a.example", source, sink, *ports]
        self.room, self.primary, self.lives, self.asked = room, primary, 0, 0
        self.begin()

    def begin(self):
        self.lives += 1
        self.piped = Piped(self.room, f"life{self.lives}", self.words)
        self.last = -1

    def look(self):
        """Asks once, and returns how far its answer is; none where the life is over."""
        reply = self.piped.ask(ASK)
        if reply is None:
            self.piped.run.wait()
            self.piped.close()
            self.begin()
            return None
        self.asked += 1
        if b"service-unavailable" in reply:
            # It has no entry yet, so it doesn't know which host is the service's.
            place = -1
        else:
            with self.primary.lock:
                places = [at for at, answer in enumerate(self.primary.answers) if answer == reply]
            # The first service may have made the answer without having been asked for it yet.
            place = places[0] if places else self.not_asked_yet(reply)
        if place < self.last:
            sys.exit(f"try: the follower went back from answer {self.last} to {place}: {reply!r}")
        self.last = place
        return place

    def not_asked_yet(self, reply):
        """Waits until the first service was asked and answered so: a minute, since a busy machine may let it wait."""
        for _ in range(3000):
            time.sleep(0.02)
            with self.primary.lock:
                if reply in self.primary.answers:
                    return self.primary.answers.index(reply)
        sys.exit(f"try: the first service never answered so: {reply!r}")


def descendants(pid):
    """Returns the processes that this one has started."""
    for line in pathlib.Path("/proc").glob("[0-9]*/stat"):
        try:
            words = line.read_text().rsplit(")", 1)[1].split()
        except OSError:
            continue
        if int(words[1]) == pid:
            yield int(line.parent.name)


class Parts:
    """The engine, the first service, what puts its entries into the log, and the follower."""

    def __init__(self, program, room, nodes):
        ports = list(engine.PORTS.values())
        self.nodes = nodes
        self.primary = Primary(program, room)
        self.put_words = [sys.executable, HERE / "put.py", program, self.primary.store, "feed", *ports]
        self.put = started(self.put_words)
        self.follower = Follower(program, room, self.primary, ports)
        self.killed = {"put.py": 0, "take.py": 0, "follower": 0, "node": 0}
        self.down = None

    def kill(self, what, dice):
        """Kills a part, and starts put.py and a node again; take.py and its follower are begun again when they are next asked."""
        mine = self.follower.piped.run.pid
        if what == "put.py":
            self.put.kill()
            self.put.wait()
            self.put = started(self.put_words)
        elif what == "take.py":
            kill_all([mine, *descendants(mine)])
        elif what == "follower":
            kill_all(descendants(mine))
        elif self.down is not None:
            self.nodes.start(self.down)
            self.down = None
            return
        else:
            self.down = dice.choice(engine.NODES)
            self.nodes.kill(self.down)
        self.killed[what] += 1

    def end(self):
        self.put.kill()
        mine = self.follower.piped.run.pid
        kill_all([mine, *descendants(mine)])
        self.primary.end()


def kill_all(processes):
    for pid in list(processes):
        try:
            os.kill(pid, signal.SIGKILL)
        except ProcessLookupError:
            pass


def killing(parts, seconds, dice):
    """Looks at the follower again and again, and kills a part every few seconds."""
    end, next_kill = time.time() + seconds, time.time() + 5
    while time.time() < end:
        parts.follower.look()
        if time.time() >= next_kill:
            parts.kill(dice.choice(sorted(parts.killed)), dice)
            next_kill = time.time() + dice.uniform(2, 5)


def catching_up(parts):
    """Waits until the follower answers as the first service does."""
    last, limit = len(parts.primary.answers) - 1, time.time() + 60
    while parts.follower.look() != last:
        if time.time() > limit:
            sys.exit(f"try: the follower stands at answer {parts.follower.last} of {last}")


def tried(parts, seconds):
    """Writes and kills for so many seconds, and returns what came of it."""
    stop = threading.Event()

    def write():
        while not stop.is_set() and parts.primary.publish():
            time.sleep(0.01)

    writer = threading.Thread(target=write)
    writer.start()
    try:
        killing(parts, seconds, random.Random(int(os.environ.get("SEED", "1"))))
        stop.set()
        writer.join()
        catching_up(parts)
    finally:
        stop.set()
        writer.join()
        parts.end()
    if parts.primary.fault != b"":
        sys.exit(f"try: the first service answered {parts.primary.fault!r}")
    killed = ", ".join(f"{what} {times}" for what, times in parts.killed.items())
    follower = parts.follower
    return (
        f"{parts.primary.written} publishes; {follower.asked} answers of the follower in {follower.lives} lives, each one that the first service gave, in order;"
        f" killed: {killed}; at the end it answers as the first does"
    )


def main():
    program = str(pathlib.Path(sys.argv[1]).resolve())
    seconds = float(sys.argv[2]) if len(sys.argv) > 2 else 60
    with tempfile.TemporaryDirectory() as room, engine.Engine(f"{room}/engine") as nodes:
        print(tried(Parts(program, room, nodes), seconds))


if __name__ == "__main__":
    main()
