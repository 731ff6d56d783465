"""What the notices of a publish cost, by how many hear of it: found, numbered and printed.

Usage: told.py PROGRAM FOLDER. To one node with 10, 1,000 and 65,536 subscribers (AUDIENCE), and to the personal node of an account whose 1,000 contacts (WANTING)
want it, publishes of 200 bytes and of 16 KB come one after the other, on 1, 2 and 4 processors. From the time of a publish that of one to a node without an
audience is taken off; the rest is that of the notices. Subscribers are of a host that isn't served, so their notices wait; contacts are of the stream's own, so
theirs are handed out meanwhile. Medians of ROUNDS (3). Then the same to 1,000 subscribers on one processor with OTHERS (10000) other nodes and ten times as many
subscriptions of another node.
"""
import os
import pathlib
import statistics
import subprocess
import sys

import corpus
import home
import measure

AUDIENCE = measure.numbers("AUDIENCE", "10 1000 65536")
WANTING = measure.numbers("WANTING", "1000")[0]
OTHERS = measure.numbers("OTHERS", "10000")[0]
NODE = home.features(3)[0].removesuffix("+notify")


def rows(node, name, count):
    """Lines of the node's owner that subscribe so many addresses."""
    for first in range(0, count, corpus.ROWS):
        yield corpus.subscribing(node, first, name, range(first, min(first + corpus.ROWS, count)), "b.example")


def item(k, node, size):
    return corpus.publishing_to(corpus.OWNER, k, node, "item-%d" % (k % 10), "x" * size)


def personal(k, who, node, size):
    """To the personal node of the account, which the first publish makes."""
    return corpus.publishing_to(who, k, node, "item-%d" % (k % 10), "x" * size, who)


def audience(count, others):
    """A node without an audience and one with it, beside other rows."""
    yield corpus.line(corpus.OWNER, 1, "set", "create{node=quiet}")
    yield corpus.line(corpus.OWNER, 2, "set", "create{node=loud}")
    if others:
        yield corpus.line(corpus.OWNER, 3, "set", "create{node=busy}")
        yield from rows("busy", "other", 10 * others)
        for k in range(others):
            yield corpus.create_by("maker", k)
    yield from rows("loud", "sub", count)


def contacts(count):
    """An account whose contacts want its node: one answers what it can do, and the others show the same hash after it."""
    owner = home.account(0)
    yield personal(0, owner, NODE, 1)
    yield personal(0, owner, "urn:quiet", 1)
    for k in range(count):
        yield home.contact(0, home.account(k + 1), "both")
    present = [home.present(home.account(k + 1), home.ver(3)) for k in range(count)]
    yield present[0] + home.answer(home.account(1), 3) + "".join(present[1:]) + home.discover(0, "pubsub.example", home.INFO)


def spent(program, folder, processors, before, phases):
    """The seconds of each phase."""
    (folder / "store").unlink(missing_ok=True)
    words = [program, "serve", "--service", "pubsub.example", "--store", folder / "store", "a.example", folder / "in", folder / "out"]
    child = subprocess.Popen([str(word) for word in words], preexec_fn=lambda: os.sched_setaffinity(0, range(processors)))
    with open(folder / "in", "wb") as source, open(folder / "out", "rb") as sink:
        measure.answered(source, sink, list(before))
        results = [measure.answered(source, sink, lines) for lines in phases]
    if child.wait() != 0:
        raise SystemExit(f"{words[0]} ended with {child.returncode}")
    for _, replies in results:
        if replies.count(b'"type":"result"') != replies.count(b"\n"):
            raise SystemExit(f"denied: {replies[:300].decode()}")
    return [seconds for seconds, _ in results]


def row(program, folder, name, count, make, quiet, loud, sizes=(200, 16384), processors=(1, 2, 4)):
    for size in sizes:
        publishes = max(3, min(200, 40000 // count)) if size < 1000 else max(2, min(50, 8000 // count))
        phases = [[publish(k, size) for k in range(publishes)] for publish in (quiet, loud)]
        rates = []
        for usable in processors:
            runs = [spent(program, folder, usable, make(), phases) for _ in range(measure.ROUNDS)]
            seconds = statistics.median(loud_s - quiet_s for quiet_s, loud_s in runs)
            rates.append(publishes * count / seconds)
        told = " ".join(f"{rate:9.0f} ({rate / rates[0]:4.2f})" for rate in rates)
        print(f"{name:36} {size:6} bytes, notices a second on {', '.join(map(str, processors))}: {told}", flush=True)


def main():
    program, folder = pathlib.Path(sys.argv[1]), pathlib.Path(sys.argv[2])
    os.mkfifo(folder / "in")
    os.mkfifo(folder / "out")
    to = lambda node: lambda k, size: item(k, node, size)
    for count in AUDIENCE:
        row(program, folder, f"{count} subscribers", count, lambda: audience(count, 0), to("quiet"), to("loud"))
    owner = home.account(0)
    own = lambda node: lambda k, size: personal(k, owner, node, size)
    row(program, folder, f"{WANTING} contacts that want it", WANTING, lambda: contacts(WANTING), own("urn:quiet"), own(NODE))
    row(program, folder, f"1000 subscribers, {OTHERS} other nodes", 1000, lambda: audience(1000, OTHERS), to("quiet"), to("loud"), (200,), (1,))


if __name__ == "__main__":
    main()
