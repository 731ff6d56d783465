"""Requests a second of the program and of the loop, phase by phase, and the program's peak memory.

Usage: measure.py KIND PROGRAM FOLDER. Lines and replies go through pipes; a phase's time is from its first line that is written to its last
reply that is read, the median of ROUNDS runs. The replies of the program and of the loop must be the same.
"""
import os
import pathlib
import statistics
import subprocess
import sys
import threading
import time

import corpus

HERE = pathlib.Path(__file__).resolve().parent
ROUNDS = int(os.environ.get("ROUNDS", "3"))


def numbers(name, default):
    return [int(word) for word in os.environ.get(name, default).split()]


def answered(source, sink, lines):
    """Writes the lines, reads a reply to each and what notices come before it, and says how long that took."""
    sent = "".join(lines).encode()

    def write():
        source.write(sent)
        source.flush()

    writer = threading.Thread(target=write)
    start = time.monotonic()
    writer.start()
    replies = []
    while len(replies) < len(lines):
        line = sink.readline()
        if not line:
            break
        if b',"id":"n-' not in line[:300]:
            replies.append(line)
    seconds = time.monotonic() - start
    writer.join()
    return seconds, b"".join(replies)


def ran(words, folder, phases):
    """The seconds of each phase, all replies, and the peak memory in MB."""
    child = subprocess.Popen([str(word) for word in words])
    with open(folder / "in", "wb") as source, open(folder / "out", "rb") as sink:
        results = [answered(source, sink, lines) for _, lines in phases]
    _, status, usage = os.wait4(child.pid, 0)
    child.returncode = os.waitstatus_to_exitcode(status)
    if child.returncode != 0:
        raise SystemExit(f"{words[0]} ended with {child.returncode}")
    return [seconds for seconds, _ in results], b"".join(replies for _, replies in results), usage.ru_maxrss / 1024


def measure(program, folder, what, phases):
    """Prints a line for each phase."""
    serve = [program, "serve", "--service", "pubsub.example", "--store", folder / "store", "a.example", folder / "in", folder / "out"]
    loop = [sys.executable, HERE / "loop.py", folder / "in", folder / "out"]
    times, loop_times, peaks = [], [], []
    for _ in range(ROUNDS):
        # each run begins with an empty store
        (folder / "store").unlink(missing_ok=True)
        seconds, replies, peak = ran(serve, folder, phases)
        loop_seconds, loop_replies, _ = ran(loop, folder, phases)
        if replies != loop_replies:
            raise SystemExit("the replies differ")
        times.append(seconds)
        loop_times.append(loop_seconds)
        peaks.append(peak)
    for at, (name, lines) in enumerate(phases):
        seconds = statistics.median(row[at] for row in times)
        loop_seconds = statistics.median(row[at] for row in loop_times)
        rates = f"{len(lines) / seconds:10.0f} {len(lines) / loop_seconds:10.0f} {loop_seconds / seconds:8.4f}"
        print(f"{what:24} {name:10} {len(lines):7} {rates} {statistics.median(peaks):8.0f}", flush=True)


def runs(kind):
    """What is measured: a name and its phases."""
    if kind == "create":
        for lines in numbers("LINES", "1000 10000 100000"):
            yield f"{lines} lines", corpus.creating(lines)
    elif kind == "publish":
        for nodes in numbers("NODES", "1 10000"):
            for lines in numbers("LINES", "1000 10000 100000"):
                yield f"{lines} to {nodes} nodes", corpus.publishing(lines, nodes)
    elif kind == "access":
        requests = numbers("REQUESTS", "1000")[0]
        for nodes in numbers("NODES", "10 1000 10000"):
            yield f"{nodes} nodes", corpus.asking(requests, nodes, 0)
        for subscriptions in numbers("SUBSCRIPTIONS", "10 10000"):
            yield f"{subscriptions} subscriptions", corpus.asking(requests, 1, subscriptions)
    else:
        raise SystemExit("create, publish or access")


def main():
    kind, program, folder = sys.argv[1], pathlib.Path(sys.argv[2]), pathlib.Path(sys.argv[3])
    os.mkfifo(folder / "in")
    os.mkfifo(folder / "out")
    print(f"{'':24} {'phase':10} {'lines':>7} {'program/s':>10} {'loop/s':>10} {'ratio':>8} {'peak MB':>8}")
    for what, phases in runs(kind):
        measure(program, folder, what, phases)


if __name__ == "__main__":
    main()
