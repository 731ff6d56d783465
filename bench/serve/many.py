"""What a request costs where others have many rows, beside what it costs where they have few.

Usage: many.py PROGRAM FOLDER. One program serves with few rows and one with many, by turns, ROUNDS times (3): 10 nodes of 10 items each, or NODES (10000) nodes of
10 items each, with a member each and SUBSCRIPTIONS (60000) of one node. Then each gets REQUESTS (1000) of each kind, one after the other. Medians
of microseconds of the processor a request are printed (/proc/PID/schedstat, so other work on the machine counts little), and their ratio; and how long one line of 4,300 rows `none` takes, over 10 and over AFFILIATIONS (100000) affiliations of a node.
"""
import os
import pathlib
import statistics
import subprocess
import sys

import corpus
import measure

NODES = measure.numbers("NODES", "10000")[0]
SUBSCRIPTIONS = measure.numbers("SUBSCRIPTIONS", "60000")[0]
REQUESTS = measure.numbers("REQUESTS", "1000")[0]
AFFILIATIONS = measure.numbers("AFFILIATIONS", "100000")[0]
LINE = 4300


def rows_before(nodes, subscriptions):
    """Makes the rows that are there before."""
    subs = -(-subscriptions // corpus.ROWS)
    return [
        corpus.phase("", nodes, corpus.create),
        corpus.phase("", 10 * nodes, lambda k: corpus.publish(k, nodes)),
        corpus.phase("", nodes, lambda k: corpus.affiliate(k, nodes)),
        corpus.phase("", subs, lambda k: corpus.subscribers(k, subscriptions)),
    ]


def asked(nodes):
    """The requests of each kind. Those that are about one node are about the first, which has the most subscriptions."""
    return [
        corpus.phase("publish", REQUESTS, lambda k: corpus.publish(10 * nodes + k, nodes)),
        corpus.phase("publish to one", REQUESTS, lambda k: corpus.publish_to(0, k)),
        corpus.phase("retrieve", REQUESTS, lambda k: corpus.retrieve(k, nodes)),
        ("publish, retract", [line for k in range(REQUESTS) for line in (corpus.publish_to(k % nodes, k), corpus.retract(k % nodes, k))]),
        corpus.phase("subscribe", REQUESTS, lambda k: corpus.subscribe(k, 1)),
        corpus.phase("subscriptions", REQUESTS, corpus.subscriptions),
        corpus.phase("unsubscribe", REQUESTS, lambda k: corpus.unsubscribe(k, 1)),
        corpus.phase("affiliate", REQUESTS, lambda k: corpus.affiliate(nodes + k, 1)),
        corpus.phase("unaffiliate", REQUESTS, lambda k: corpus.affiliate(nodes + k, 1, "none")),
        corpus.phase("create", REQUESTS, lambda k: corpus.create_by("maker", k)),
        corpus.phase("delete", REQUESTS, lambda k: corpus.delete_by("maker", k)),
    ]


def spent(child):
    """The nanoseconds that the program was on a processor."""
    return int(pathlib.Path(f"/proc/{child.pid}/schedstat").read_text().split()[0])


def ran(words, folder, phases):
    """The processor's seconds of each phase, all replies, and the peak memory in MB."""
    child = subprocess.Popen([str(word) for word in words])
    seconds, replies = [], b""
    with open(folder / "in", "wb") as source, open(folder / "out", "rb") as sink:
        for _, lines in phases:
            before = spent(child)
            _, got = measure.answered(source, sink, lines)
            seconds.append((spent(child) - before) / 1e9)
            replies += got
    _, status, usage = os.wait4(child.pid, 0)
    child.returncode = os.waitstatus_to_exitcode(status)
    if child.returncode != 0:
        raise SystemExit(f"{words[0]} ended with {child.returncode}")
    return seconds, replies, usage.ru_maxrss / 1024


def served(program, folder, phases):
    words = [program, "serve", "--service", "pubsub.example", "--store", folder / "store", "a.example", folder / "in", folder / "out"]
    (folder / "store").unlink(missing_ok=True)
    seconds, replies, peak = ran(words, folder, phases)
    bad = [line for line in replies.splitlines() if b'"type":"result"' not in line]
    if bad:
        raise SystemExit(f"{len(bad)} denied, the first: {bad[0].decode()}")
    return seconds, peak


def kinds(program, folder, sizes):
    """Prints what a request of each kind takes: `sizes` are the phases that make rows, and those that are measured, with few rows and with many."""
    rows = {}
    peaks = []
    for _ in range(measure.ROUNDS):
        for size, first, asked_of in sizes:
            phases = first + asked_of
            seconds, peak = served(program, folder, phases)
            for (name, lines), took in list(zip(phases, seconds))[len(first):]:
                count = sum(line.count("\n") for line in lines)
                rows.setdefault(name, {}).setdefault(size, []).append(1e6 * took / count)
            if size == "many":
                peaks.append(peak)
    print(f"{'':16} {'few, us':>10} {'many, us':>10} {'ratio':>8}")
    for name, sized in rows.items():
        few, many = statistics.median(sized["few"]), statistics.median(sized["many"])
        print(f"{name:16} {few:10.1f} {many:10.1f} {many / few:8.2f}", flush=True)
    print(f"peak memory with many: {statistics.median(peaks):.0f} MB")


def long_line(program, folder):
    for count in (10, AFFILIATIONS):
        lines = -(-count // corpus.ROWS)
        phases = [
            corpus.phase("", 1, corpus.create),
            corpus.phase("", lines, lambda k: corpus.members(k, count)),
            corpus.phase("none", 1, lambda k: corpus.nobody(LINE)),
        ]
        seconds = [served(program, folder, phases)[0][-1] for _ in range(measure.ROUNDS)]
        print(f"{LINE} rows none over {count} affiliations: {statistics.median(seconds):.3f} s", flush=True)


def main():
    program, folder = pathlib.Path(sys.argv[1]), pathlib.Path(sys.argv[2])
    os.mkfifo(folder / "in")
    os.mkfifo(folder / "out")
    sizes = [("few", 10, 10), ("many", NODES, SUBSCRIPTIONS)]
    kinds(program, folder, [(size, rows_before(nodes, subscriptions), asked(nodes)) for size, nodes, subscriptions in sizes])
    long_line(program, folder)


if __name__ == "__main__":
    main()
