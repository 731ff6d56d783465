#!/usr/bin/env python3
"""Serves several streams at once over named pipes, and looks at every line that comes.

Usage: streams.py PROGRAM [NAME..]

Each part has a folder, a store and a process of its own, and time limits. Those named are run, or all:

    paced    two streams, each line written once the line before it was answered; a publish on one is told on the other
    open     two streams, of which one has a source that never ends: the other's replies come, and its own do
    full     a sink that nobody reads keeps no other stream waiting, and has everything once it is read
    sixteen  sixteen streams at once, a publisher on each and a subscriber on each to all of them; lines of several share a frame
    order    a stream's replies come in the order of its lines, beside notices to the same stream
    together publishes that are written at once share frames; of the first of two such lines another stream is told without delay
    crowd    sixteen streams with many lines each at once, all of which want the lock
    audience 200 subscribers on one host and two on another: each is told of all in order, and many records share a frame

The status is 0 only where each part that was run passed.
"""
import json
import pathlib
import sys
import tempfile
import time

import serving
from serving import Service
from stanzas import create, notice, publish, published, result, retrieve, subscribe, subscribed

ANN, BOB = "ann@a.example/1", "bob@b.example/1"


class Wrong(Exception):
    """Something else came than is wanted."""


def same(what, got, wanted):
    """Raises `Wrong`, with the first place at which the two lists differ."""
    got, wanted = list(got), list(wanted)
    for at, (one, other) in enumerate(zip(got, wanted)):
        if one != other:
            raise Wrong(f"{what}, line {at + 1}:\n    came   {one!r}\n    wanted {other!r}")
    if len(got) != len(wanted):
        beyond = (got + wanted)[min(len(got), len(wanted)):][:1] if len(got) < len(wanted) else got[len(wanted):][:1]
        raise Wrong(f"{what}: {len(got)} lines came, {len(wanted)} are wanted; {beyond!r}")


def ends_well(service):
    status, report = service.end()
    if (status, report) != (0, b""):
        raise Wrong(f"the program ended with {status}, and reported {report!r}")


def ask(service, stream, line, lines=1):
    """Sends the line, and waits for so many lines on its stream."""
    wanted = stream.count + lines
    stream.send(line)
    service.pump(lambda: stream.count >= wanted, 30, what=f"the answer to {line!r}")


def paced(program, folder):
    with Service(program, folder, ["a.example", "b.example"]) as service:
        a, b = service.streams
        ask(service, a, create(ANN, 1, "news"))
        ask(service, b, subscribe(BOB, 1, "news"))
        for number in range(2, 12):
            told = b.count + 1
            ask(service, a, publish(ANN, number, "news", f"i{number}"))
            service.pump(lambda: b.count >= told, 30, what="the notice")
            ask(service, b, retrieve(BOB, number, "nothing"))
        same("the replies on a", a.lines(), [result(ANN, 1)] + [published(ANN, k, "news", f"i{k}") for k in range(2, 12)])
        same("the notices on b", b.notices(), [notice("bob@b.example", k - 1, "news", f"i{k}") for k in range(2, 12)])
        same("the first reply on b", b.lines()[:2], [subscribed(BOB, 1, "news"), notice("bob@b.example", 1, "news", "i2")])
        if len(b.replies()) != 11:
            raise Wrong("a line on b has no reply")
        ends_well(service)


def open_source(program, folder):
    with Service(program, folder, ["a.example", "b.example"]) as service:
        a, b = service.streams
        b.send(*(create(BOB, k, f"node-{k}") for k in range(300)))
        service.pump(lambda: b.count >= 300, 60, what="the replies of the other stream")
        b.end_source()
        same("the replies on b", b.lines(), [result(BOB, k) for k in range(300)])
        # b has no source any more. On a lines are taken and answered as before, also one that is written in two pieces.
        ask(service, a, create(ANN, 1, "node-300"))
        first, rest = create(ANN, 2, "node-301")[:40], create(ANN, 2, "node-301")[40:]
        a.unsent += first
        service.pump(lambda: not a.unsent, 10)
        time.sleep(0.2)
        ask(service, a, rest)
        same("the replies on a", a.lines(), [result(ANN, 1), result(ANN, 2)])
        ends_well(service)


def full(program, folder):
    """Nobody reads the sink of a: its pipe holds 64 KiB, and 64 replies wait behind it."""
    asked, told = 1500, 50
    with Service(program, folder, ["a.example", "b.example"]) as service:
        a, b = service.streams
        ask(service, b, create(BOB, 1, "news"))
        ask(service, a, subscribe(ANN, 1, "news"))
        a.send(*(create(ANN, k, f"full-{k}") for k in range(asked)))
        b.send(*(publish(BOB, k, "news", f"i{k}") for k in range(told)))
        service.pump(lambda: b.count >= 1 + told, 60, deaf=[a], what="the replies of the other stream")
        # And once more, now that a's sink has been full for a while.
        time.sleep(0.5)
        if not a.unsent:
            raise Wrong("the source of the stream whose sink is full was taken whole")
        for k in range(told, 2 * told):
            b.send(publish(BOB, k, "news", f"i{k}"))
            service.pump(lambda: b.count >= 2 + k, 30, deaf=[a], what="a reply of the other stream")
        same("the replies on b", b.lines(), [result(BOB, 1)] + [published(BOB, k, "news", f"i{k}") for k in range(2 * told)])
        service.pump(lambda: a.count >= 1 + asked + 2 * told, 120, what="what a's sink was to have")
        same("the replies on a", a.replies(), [subscribed(ANN, 1, "news")] + [result(ANN, k) for k in range(asked)])
        same("the notices on a", a.notices(), [notice("ann@a.example", k + 1, "news", f"i{k}") for k in range(2 * told)])
        ends_well(service)


def told_of(line):
    """The number, node and item of a notice, and its line without the number and the receiver."""
    tree = json.loads(line)
    items = tree["c"][0]["c"][0]
    return int(tree["a"]["id"][2:]), (items["a"]["node"], items["c"][0]["a"]["id"])


def sixteen(program, folder):
    count, each = 16, 8
    with Service(program, folder, [f"h{k}.example" for k in range(count)]) as service:
        streams = service.streams
        senders = [f"pub@{stream.host}/1" for stream in streams]
        for at, stream in enumerate(streams):
            stream.send(create(senders[at], 0, f"node-{at}"))
        service.pump(lambda: all(stream.count >= 1 for stream in streams), 60, what="a node")
        for stream in streams:
            stream.send(*(subscribe(f"sub@{stream.host}/1", 1 + k, f"node-{k}") for k in range(count)))
        service.pump(lambda: all(stream.count >= 1 + count for stream in streams), 60, what="a subscription")
        for at, stream in enumerate(streams):
            stream.send(*(publish(senders[at], 100 + k, f"node-{at}", f"i{k}") for k in range(each)))
        wanted = 1 + count + each + count * each
        service.pump(lambda: all(stream.count >= wanted for stream in streams), 120, what="a reply or a notice")
        ends_well(service)
        orders = set()
        for at, stream in enumerate(streams):
            replies = [result(senders[at], 0)]
            replies += [subscribed(f"sub@{stream.host}/1", 1 + k, f"node-{k}") for k in range(count)]
            replies += [published(senders[at], 100 + k, f"node-{at}", f"i{k}") for k in range(each)]
            same(f"the replies on {stream.host}", stream.replies(), replies)
            told = [told_of(line) for line in stream.notices()]
            lines = [notice(f"sub@{stream.host}", k + 1, node, item) for k, (_, (node, item)) in enumerate(told)]
            same(f"the notices on {stream.host}", stream.notices(), lines)
            for other in range(count):
                items = [item for _, (node, item) in told if node == f"node-{other}"]
                same(f"the items of node-{other} on {stream.host}", items, [f"i{k}" for k in range(each)])
            orders.add(tuple(it for _, it in told))
        if len(orders) != 1:
            raise Wrong("two addresses were told in different orders")
        if not any(len(hosts) > 1 for hosts in frames(f"{folder}/store")):
            raise Wrong("no frame has lines of two streams")


def order(program, folder):
    """Each of two is told of what both publish, while both publish without waiting."""
    each = 100
    with Service(program, folder, ["a.example", "b.example"]) as service:
        a, b = service.streams
        ask(service, a, create(ANN, 0, "left"))
        ask(service, b, create(BOB, 0, "right"))
        for stream, who in ((a, ANN), (b, BOB)):
            ask(service, stream, subscribe(who, 1, "left"))
            ask(service, stream, subscribe(who, 2, "right"))
        for stream, who, node in ((a, ANN, "left"), (b, BOB, "right")):
            stream.send(*(publish(who, 10 + k, node, f"i{k}") for k in range(each)))
        ends_well_after = lambda: all(stream.count >= 3 + 3 * each for stream in (a, b))
        service.pump(ends_well_after, 120, what="a reply or a notice")
        ends_well(service)
        for stream, who, node in ((a, ANN, "left"), (b, BOB, "right")):
            same("the replies", stream.replies()[3:], [published(who, 10 + k, node, f"i{k}") for k in range(each)])
            told = [told_of(line) for line in stream.notices()]
            same("the numbers of notices", [number for number, _ in told], range(1, 1 + 2 * each))
            for name in ("left", "right"):
                same("the items told of", [item for _, (at, item) in told if at == name], [f"i{k}" for k in range(each)])


def hosts_in(body):
    """The hosts whose lines made the entries of a frame."""
    at, hosts = 0, set()
    while at < len(body):
        tag, size = body[at], int.from_bytes(body[at + 1 : at + 3], "big")
        host, at = body[at + 3 : at + 3 + size], at + 3 + size
        if tag in (1, 4):
            at += 8 if tag == 1 else 16
            at += 4 + int.from_bytes(body[at : at + 4], "big")
            hosts.add(host)
    return hosts


def frames(store):
    """The frames of a store: of each the hosts whose lines made its entries."""
    text, found, at = pathlib.Path(store).read_bytes(), [], 8
    while at < len(text) and text[at] == 1:
        at, end = at + 5, at + 5 + int.from_bytes(text[at + 1 : at + 5], "big")
        found.append(hosts_in(text[at:end]))
        at = end
    return found


def together(program, folder):
    """A writer that nobody wakes looks again after a second: the notices come sooner."""
    each, rounds = 200, 10
    with Service(program, folder, ["a.example", "b.example"]) as service:
        a, b = service.streams
        ask(service, a, create(ANN, 0, "news"))
        before = len(frames(f"{folder}/store"))
        a.send(*(publish(ANN, k, "news", f"i{k}") for k in range(each)))
        service.pump(lambda: a.count >= 1 + each, 60, what="a reply")
        same("the replies on a", a.lines(), [result(ANN, 0)] + [published(ANN, k, "news", f"i{k}") for k in range(each)])
        count = len(frames(f"{folder}/store")) - before
        if count >= each:
            raise Wrong(f"{count} frames have {each} publishes that were written at once")
        ask(service, b, subscribe(BOB, 0, "news"))
        start = time.monotonic()
        for k in range(rounds):
            told = b.count + 1
            a.send(publish(ANN, each + k, "news", f"i{each + k}"), retrieve(ANN, k, "nothing"))
            service.pump(lambda: b.count >= told, 30, what="the notice")
        if time.monotonic() - start > rounds / 2:
            raise Wrong(f"{rounds} notices came in {time.monotonic() - start:.1f} s")
        same("the notices on b", b.notices(), [notice("bob@b.example", k + 1, "news", f"i{each + k}") for k in range(rounds)])
        ends_well(service)


def crowd(program, folder):
    """The lines commit nothing, so nothing but the lock keeps a stream waiting: who sleeps over its turn there never ends."""
    count, each, rounds = 16, 400, 3
    with Service(program, folder, [f"h{k}.example" for k in range(count)]) as service:
        for turn in range(rounds):
            for k, stream in enumerate(service.streams):
                stream.send(*(retrieve(f"who@h{k}.example/1", turn * each + at, "nothing") for at in range(each)))
            service.pump(lambda: all(stream.count >= (turn + 1) * each for stream in service.streams), 120, what="a reply")
        ends_well(service)
        for stream in service.streams:
            ids = [json.loads(line)["a"]["id"] for line in stream.lines()]
            same(f"the replies on {stream.host}", ids, [str(k) for k in range(rounds * each)])


def audience(program, folder):
    """The subscribers of a's host are told by one writer, in any order among them; each is told in the order of the publishes."""
    many, few, each = 200, 2, 5
    with Service(program, folder, ["a.example", "b.example"]) as service:
        a, b = service.streams
        ask(service, a, create(ANN, 0, "news"))
        for stream, count in ((a, many), (b, few)):
            stream.send(*(subscribe(f"sub{k}@{stream.host}/1", 1 + k, "news") for k in range(count)))
        service.pump(lambda: a.count >= 1 + many and b.count >= few, 60, what="a subscription")
        before = len(frames(f"{folder}/store"))
        a.send(*(publish(ANN, 1 + many + k, "news", f"i{k}") for k in range(each)))
        service.pump(lambda: a.count >= 1 + many + each * (1 + many) and b.count >= few * (1 + each), 120, what="a reply or a notice")
        ends_well(service)
        same("the replies on a", a.replies()[1 + many :], [published(ANN, 1 + many + k, "news", f"i{k}") for k in range(each)])
        for stream, count in ((a, many), (b, few)):
            told = {f"sub{k}@{stream.host}": [] for k in range(count)}
            for line in stream.notices():
                told[json.loads(line)["a"]["to"]].append(line)
            for address, lines in told.items():
                same(f"the notices to {address}", lines, [notice(address, 1 + k, "news", f"i{k}") for k in range(each)])
        made = len(frames(f"{folder}/store")) - before
        if made >= each * many / 4:
            raise Wrong(f"{made} frames have {each} publishes and {each * (many + few)} records")


PARTS = {"paced": paced, "open": open_source, "full": full, "sixteen": sixteen, "order": order, "together": together, "crowd": crowd, "audience": audience}


def main():
    program = pathlib.Path(sys.argv[1]).resolve()
    status = 0
    for name in sys.argv[2:] or PARTS:
        start = time.monotonic()
        with tempfile.TemporaryDirectory(prefix="streams-") as folder:
            try:
                PARTS[name](program, folder)
                why = "passed"
            except (Wrong, serving.Late, OSError) as error:
                why, status = f"{type(error).__name__}: {error}", 1
        print(f"{name:8} {time.monotonic() - start:5.1f} s  {why}", flush=True)
    return status


if __name__ == "__main__":
    sys.exit(main())
