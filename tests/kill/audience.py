#!/usr/bin/env python3
"""Kills the program while it tells many subscribers of one publish, and looks at what each was told over all stops.

Usage: audience.py PROGRAM TIMES [MANY [FOLDER]], with MANY (2,000) subscribers

MANY addresses of one host and two of another subscribe to a node. It is measured how long a publish to all takes. At each stop there is one publish, and the program is
killed (SIGKILL) at some moment of that time; the last stop has no line and ends by itself. All stops go over the same store. Then:

- each line that came whole is a reply or a notice;
- an address's notices have the numbers 1, 2, .. over all stops, each with its line; a stop may begin with the last one of a stop before, and repeats no other;
- all addresses were told of the same items in the same order, among them each that was answered.
"""
import json
import os
import pathlib
import random
import subprocess
import sys
import tempfile
import time

sys.path.insert(0, str(pathlib.Path(__file__).resolve().parent.parent / "lines"))
from stanzas import create, is_notice, notice, publish, published, result, subscribe, subscribed

HOSTS = ("a.example", "b.example")
ANN = "ann@a.example/1"


def write_lines(room, lines):
    """Gives each stream its lines, and takes away what its sink had."""
    for host, own in zip(HOSTS, lines):
        pathlib.Path(f"{room}/{host}.in").write_bytes(b"".join(line + b"\n" for line in own))
        pathlib.Path(f"{room}/{host}.out").unlink(missing_ok=True)


def started(program, room, lines):
    write_lines(room, lines)
    words = [program, "serve", "--service", "pubsub.example", "--store", f"{room}/store"]
    for host in HOSTS:
        words += [host, f"{room}/{host}.in", f"{room}/{host}.out"]
    return subprocess.Popen(words, stdout=subprocess.PIPE)


def ran(program, room, lines):
    """Runs to the end, and returns the lines of each sink."""
    child = started(program, room, lines)
    report = child.communicate(timeout=900)[0]
    if child.returncode or report:
        sys.exit(f"the program ended with {child.returncode}, and reported {report!r}")
    return [sink_lines(room, host) for host in HOSTS]


def sink_lines(room, host):
    """The whole lines of a sink: what a kill left of the next one isn't a line."""
    path = pathlib.Path(f"{room}/{host}.out")
    return path.read_bytes().split(b"\n")[:-1] if path.exists() else []


def subscribers(many):
    return [f"sub{k}@{HOSTS[0]}" for k in range(many)], [f"sub{k}@{HOSTS[1]}" for k in range(2)]


def prepare(program, room, many):
    if ran(program, room, ([create(ANN, 0, "news")], []))[0] != [result(ANN, 0)]:
        sys.exit("the node wasn't made")
    lines = [[subscribe(f"{it}/1", k, "news") for k, it in enumerate(own)] for own in subscribers(many)]
    wanted = [[subscribed(f"{it}/1", k, "news") for k, it in enumerate(own)] for own in subscribers(many)]
    if ran(program, room, lines) != wanted:
        sys.exit("a subscription wasn't made")


class Told:
    """What each address was told over all stops, in the order of its numbers: each line once."""

    def __init__(self, many):
        self.lines = {it: [] for own in subscribers(many) for it in own}
        self.items, self.repeats, self.answered = {it: [] for it in self.lines}, 0, []

    def take(self, room):
        """Takes what one stop wrote."""
        for host in HOSTS:
            fresh = set()
            for line in sink_lines(room, host):
                if is_notice(line):
                    self.take_notice(line, fresh)
                else:
                    self.take_reply(line)

    def take_reply(self, line):
        item = json.loads(line)["c"][0]["c"][0]["c"][0]["a"]["id"]
        if line != published(ANN, 1, "news", item):
            sys.exit(f"a reply is {line!r}")
        self.answered.append(item)

    def take_notice(self, line, fresh):
        tree = json.loads(line)
        address, number = tree["a"]["to"], int(tree["a"]["id"][2:])
        item = tree["c"][0]["c"][0]["c"][0]["a"]["id"]
        before = self.lines[address]
        if address not in fresh and before and number == len(before):
            self.repeats += 1
            if line != before[-1]:
                sys.exit(f"notice {number} of {address} came again with another line")
        elif number != len(before) + 1 or line != notice(address, number, "news", item):
            sys.exit(f"{address} was told {line!r} after {len(before)}")
        else:
            before.append(line)
            self.items[address].append(item)
        fresh.add(address)


def main(words):
    program, times = os.path.abspath(words[0]), int(words[1])
    many = int(words[2]) if len(words) > 2 else 2000
    with tempfile.TemporaryDirectory(prefix="kill-audience-", dir=words[3] if len(words) > 3 else None) as room:
        rng, told = random.Random(1), Told(many)
        prepare(program, room, many)
        start = time.monotonic()
        ran(program, room, ([publish(ANN, 1, "news", "whole")], []))
        took = time.monotonic() - start
        told.take(room)
        for stop in range(times):
            child = started(program, room, ([publish(ANN, 1, "news", f"i{stop}")], []))
            time.sleep(rng.uniform(0.0, 1.2 * took))
            child.kill()
            child.communicate()
            told.take(room)
        ran(program, room, ([], []))
        told.take(room)
        items = told.items[f"sub0@{HOSTS[0]}"]
        if any(it != items for it in told.items.values()):
            sys.exit("two addresses were told of different items, or in different orders")
        lost = [it for it in told.answered if it not in items]
        if lost or sorted(set(items)) != sorted(items):
            sys.exit(f"answered and not told: {lost}")
        print(f"killed {times} times: {len(told.items)} addresses were told of {len(items)} items each, {told.repeats} lines of {len(items) * len(told.items)} twice")


if __name__ == "__main__":
    if len(sys.argv) < 3:
        sys.exit(__doc__.strip())
    main(sys.argv[1:])
