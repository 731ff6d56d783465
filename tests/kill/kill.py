#!/usr/bin/env python3
"""Kills the program while it serves, opens its store again, and asks for all that was answered.

Usage: kill.py PROGRAM TIMES [FOLDER]

Each time the program is given lines that make nodes, and is killed (SIGKILL) at a moment that differs from time to time. Whoever was
answered by a result must find the node when the store is opened again, and is told about it then. Behind these a front of the next lines
may have taken effect, whose replies were not written: 64 that wait and the one that is being written. No other node is there. The next
time goes on over the same store. FOLDER is where the store lies; a new one in the system's folder for temporary files is taken where none
is named.
"""
import json
import os
import pathlib
import random
import subprocess
import sys
import tempfile
import time

sys.path.insert(0, str(pathlib.Path(__file__).resolve().parent.parent / "lines"))
import stanzas

LINES = 4000
# Of one stream: the replies that wait for its sink, and the one that is being written.
AHEAD = 64 + 1


def sender(number):
    return f"maker{number % 97}@a.example/1"


def create(number):
    return stanzas.create(sender(number), number, f"node-{number}")


def ask(number):
    """What the node is: a result where it stands, and else an error."""
    return stanzas.iq(sender(number), number, "get", "query:DI{node=node-%d}" % number)


def write_lines(path, make, first):
    with open(path, "wb") as it:
        it.writelines(make(number) + b"\n" for number in range(first, first + LINES))


def words(program, room, sink="out"):
    return [program, "serve", "--service", "pubsub.example", "--store", f"{room}/store", "a.example", f"{room}/in", f"{room}/{sink}"]


def replies_in(text):
    """Returns the id, and whether it is a result, of each whole line."""
    trees = [json.loads(line) for line in text.split(b"\n")[:-1]]
    return [(int(tree["a"]["id"]), tree["a"]["type"] == "result") for tree in trees]


def replies(path):
    with open(path, "rb") as it:
        return replies_in(it.read())


def in_order(told, first):
    """How many were answered, where all are results and none is missing."""
    if told != [(first + k, True) for k in range(len(told))]:
        sys.exit("a reply is missing, out of order, or no result")
    return len(told)


def kill_once(program, room, first, rng):
    """Serves creates from that number on, kills the program, and returns how many were answered by a result."""
    write_lines(f"{room}/in", create, first)
    if os.path.exists(f"{room}/out"):
        os.remove(f"{room}/out")
    started = subprocess.Popen(words(program, room))
    until = time.monotonic() + 30
    while time.monotonic() < until and not (os.path.exists(f"{room}/out") and os.path.getsize(f"{room}/out")):
        time.sleep(0.002)
    time.sleep(rng.uniform(0.0, 0.4))
    started.kill()
    started.wait()
    return in_order(replies(f"{room}/out"), first)


def rests(path):
    """Waits until the file has not grown for a while."""
    before, until = -1, time.monotonic() + 30
    while time.monotonic() < until and os.path.getsize(path) != before:
        before = os.path.getsize(path)
        time.sleep(0.5)


def kill_full(program, room, first):
    """The same with a pipe as the sink, which is read once the program is killed."""
    write_lines(f"{room}/in", create, first)
    os.mkfifo(f"{room}/pipe")
    sink = os.open(f"{room}/pipe", os.O_RDONLY | os.O_NONBLOCK)
    started = subprocess.Popen(words(program, room, "pipe"))
    rests(f"{room}/store")
    started.kill()
    started.wait()
    told = b""
    while piece := os.read(sink, 1 << 20):
        told += piece
    os.close(sink)
    return in_order(replies_in(told), first)


def check(program, room, first, answered):
    """Opens the store again, asks for all nodes, and returns how many are there whose replies were not written."""
    write_lines(f"{room}/in", ask, first)
    ended = subprocess.run(words(program, room), timeout=120)
    if ended.returncode != 0:
        sys.exit(f"the store was not opened again: status {ended.returncode}")
    told = replies(f"{room}/out")
    if [number for number, _ in told] != list(range(first, first + LINES)):
        sys.exit("a line got no reply when the store was opened again")
    there = [stands for _, stands in told]
    lost = answered - sum(there[:answered])
    if lost:
        sys.exit(f"{lost} of {answered} nodes that were answered are lost")
    ahead = sum(there[answered:])
    if not all(there[answered : answered + ahead]):
        sys.exit("behind a line that took no effect is one that did")
    if ahead > AHEAD:
        sys.exit(f"{ahead} nodes are there that were not answered")
    return ahead


def main():
    program, times = os.path.abspath(sys.argv[1]), int(sys.argv[2])
    with tempfile.TemporaryDirectory(prefix="kill-", dir=sys.argv[3] if len(sys.argv) > 3 else None) as room:
        rng, first, answered, ahead = random.Random(1), 0, 0, 0
        for _ in range(times):
            count = kill_once(program, room, first, rng)
            ahead = max(ahead, check(program, room, first, count))
            first += LINES
            answered += count
        count = kill_full(program, room, first)
        most = check(program, room, first, count)
        print(f"killed {times} times: each of {answered} nodes that were answered was there, and at most {ahead} behind them")
        print(f"killed with a full sink: each of {count}, and {most} behind them")


main()
