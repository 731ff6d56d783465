#!/usr/bin/env python3
"""Kills the program while it tells a subscriber of a node, and mirrors the node from all that the subscriber was told.

Usage: mirror.py PROGRAM TIMES [SEED [FOLDER]]

Each time a node of 1 to 8 items is made, bob subscribes to it and to another one, and ann publishes, retracts and purges. The program is killed (SIGKILL) at a
moment that differs from time to time, is started again over the same store with the next requests, and at last, with none, ends by itself: then all notices are
out. What bob's sinks got is joined, one behind the other; a line that a kill has cut ends there. `mirror` must report of it, byte by byte, the items with which the
service answers bob's request for all items. With a mirror's own number for the most items set one lower the copy must lack the oldest item alone, where the node is full.
"""
import json
import os
import pathlib
import random
import subprocess
import sys
import tempfile
import time

sys.path.insert(0, str(pathlib.Path(__file__).resolve().parent.parent / "lines"))
from notation import PUBSUB, Element
from stanzas import OWNER, SERVICE, asked, create, entry, item, retrieve, subscribe

ANN, BOB = "ann@a.example/1", "bob@b.example/1"
LINES = 300
IDS = [f"i{k}" for k in range(12)]
TEXTS = ["hi", "", "\"quoted\"\t\\", "\u00e4\u6f22\U0001f600", "\u0001\u007f", "x" * 3000, "\n" * 9000]


def words(program, room):
    return [program, "serve", "--service", SERVICE, "--store", f"{room}/store", "a.example", f"{room}/a.in", f"{room}/a.out", "b.example", f"{room}/b.in", f"{room}/b.out"]


def write_lines(room, ann, bob):
    for host, lines in (("a", ann), ("b", bob)):
        pathlib.Path(f"{room}/{host}.in").write_bytes(b"".join(line + b"\n" for line in lines))
        pathlib.Path(f"{room}/{host}.out").unlink(missing_ok=True)


def sink(room, host="b"):
    path = pathlib.Path(f"{room}/{host}.out")
    return path.read_bytes() if path.exists() else b""


def ran(program, room, ann, bob):
    """Serves these lines to their end, and gives what bob was told."""
    write_lines(room, ann, bob)
    ended = subprocess.run(words(program, room), timeout=300, stdout=subprocess.PIPE)
    if ended.returncode != 0 or ended.stdout:
        sys.exit(f"the program ended with {ended.returncode}, and reported {ended.stdout!r}")
    return sink(room)


def killed(program, room, ann, bob, rng):
    """Serves these lines, kills the program at some moment after its first reply, and gives what bob was told."""
    write_lines(room, ann, bob)
    started = subprocess.Popen(words(program, room), stdout=subprocess.DEVNULL)
    until = time.monotonic() + 30
    while time.monotonic() < until and started.poll() is None and not sink(room, "a"):
        time.sleep(0.001)
    time.sleep(rng.uniform(0.0, 0.25))
    started.kill()
    started.wait()
    told = sink(room)
    return told if told.endswith(b"\n") or not told else told + b"\n"


def change(number, rng):
    """A request of ann's that changes the node or the other one: mostly a publish."""
    which, name = rng.random(), rng.choice(IDS)
    if which < 0.02:
        return asked(ANN, number, "set", "purge{node=news}", OWNER)
    if which < 0.2:
        return asked(ANN, number, "set", [Element("retract", None, {"node": "news"}, [item(name)])])
    node = "news" if which < 0.9 else "other"
    kids = [item(name, entry(f"{number} {rng.choice(TEXTS)}"))]
    return asked(ANN, number, "set", [Element("publish", None, {"node": node}, kids)])


def begin(program, room, most):
    """Makes the nodes, and subscribes bob."""
    made = asked(ANN, 0, "set", "create{node=news} configure(@node_config{max_items=%d notify_retract=1})" % most)
    ran(program, room, [made, create(ANN, 1, "other")], [])
    if sink(room, "a").count(b'"type":"result"') != 2:
        sys.exit("a node wasn't made")
    told = ran(program, room, [], [subscribe(BOB, 0, "news"), subscribe(BOB, 1, "other")])
    if told.count(b'"subscription":"subscribed"') != 2:
        sys.exit("bob wasn't subscribed")
    return told


def items_of(program, room):
    """The items with which the service answers a request for all of the node, each as a line."""
    reply = json.loads(ran(program, room, [], [retrieve(BOB, 0, "news")]).split(b"\n")[0])
    if reply["a"]["type"] != "result":
        sys.exit(f"the items weren't given: {reply}")
    items = reply["c"][0]["c"][0].get("c", [])
    return [json.dumps(it | {"ns": PUBSUB}, separators=(",", ":"), ensure_ascii=False).encode() for it in items]


def mirrored(program, path, most):
    ended = subprocess.run([program, "mirror", SERVICE, "news", "bob@b.example", str(most), path], timeout=300, stdout=subprocess.PIPE)
    if ended.returncode != 0:
        sys.exit(f"the mirror ended with {ended.returncode}, and reported {ended.stdout!r}")
    return ended.stdout.split(b"\n")[:-1]


def repeats_in(told):
    """How many notices of the node came again, and how many lines were cut."""
    numbers, repeats, cut = set(), 0, 0
    for line in told.split(b"\n")[:-1]:
        try:
            name = json.loads(line)["a"]["id"]
        except ValueError:
            cut += 1
            continue
        repeats += name in numbers and name.startswith("n-")
        numbers.add(name)
    return repeats, cut


def once(program, room, rng):
    """Kills and starts again, and compares. Gives how many kills there were, how many notices came again, how many lines were cut, and how many items stand."""
    most, kills = rng.randint(1, 8), rng.randint(2, 6)
    joined = begin(program, room, most)
    for stop in range(kills):
        ann = [change(number, rng) for number in range(stop * LINES, (stop + 1) * LINES)]
        bob = [retrieve(BOB, number, rng.choice(["news", "other"])) for number in range(10)]
        joined += killed(program, room, ann, bob, rng)
    joined += ran(program, room, [], [])
    path = f"{room}/joined"
    pathlib.Path(path).write_bytes(joined)
    held = items_of(program, room)
    if (copy := mirrored(program, path, most)) != held:
        sys.exit(f"the node holds {held}, and its mirror {copy}")
    if len(held) == most > 1 and (fewer := mirrored(program, path, most - 1)) != held[1:]:
        sys.exit(f"of {held} a mirror of {most - 1} holds {fewer}")
    return (kills, *repeats_in(joined), len(held))


def main():
    program, times = os.path.abspath(sys.argv[1]), int(sys.argv[2])
    seed = int(sys.argv[3]) if len(sys.argv) > 3 else 1
    counts = []
    for at in range(times):
        with tempfile.TemporaryDirectory(prefix="mirror-", dir=sys.argv[4] if len(sys.argv) > 4 else None) as room:
            counts.append(once(program, room, random.Random(seed * 1000 + at)))
    kills, repeats, cut, items = map(sum, zip(*counts))
    print(f"mirrored {times} times after {kills} kills: {items} items, the same as the service holds; {repeats} notices came again, {cut} lines were cut")


main()
