#!/usr/bin/env python3
"""Kills the program while sixteen streams publish to subscribers on all of them, and looks at what was told over all stops.

Usage: streams.py PROGRAM TIMES [LINES [FOLDER]], with LINES (100) publishes of each stream a stop

A subscriber on each of the sixteen hosts hears of sixteen nodes, of which each host has the publisher of one. At each stop every stream gets
its next publishes, and the program is killed (SIGKILL) at a moment that differs from stop to stop; the last stop has no lines and ends by
itself. All stops go over the same store. Then:

- each line that came whole is the reply to the next line of its stream, or a notice;
- an address's notices have the numbers 1, 2, .. over all stops; a stop may begin with the last one of a stop before, and repeats no other;
- a number has the same line at each stop, but for one that a kill has cut, which is a front of it;
- all addresses are told of the same items in the same order, each once;
- each publish that was answered is told of; behind these of each stream and stop a front of the next ones, of at most 65, and no other.
"""
import json
import os
import pathlib
import random
import subprocess
import sys
import tempfile
import time

sys.path.insert(0, str(pathlib.Path(__file__).resolve().parent.parent / "lines"))
from stanzas import create, notice, publish, published, result, subscribe, subscribed

HOSTS = [f"h{k}.example" for k in range(16)]
# Of one stream: the replies that wait for its sink, and the one that is being written.
AHEAD = 64 + 1


def sender(at):
    return f"pub@{HOSTS[at]}/1"


def reader(at):
    return f"sub@{HOSTS[at]}"


def words(program, room):
    found = [program, "serve", "--service", "pubsub.example", "--store", f"{room}/store"]
    for host in HOSTS:
        found += [host, f"{room}/{host}.in", f"{room}/{host}.out"]
    return found


def write_lines(room, lines_of):
    """Gives each stream its lines, and takes away what its sink had."""
    for at, host in enumerate(HOSTS):
        pathlib.Path(f"{room}/{host}.in").write_bytes(b"".join(line + b"\n" for line in lines_of(at)))
        pathlib.Path(f"{room}/{host}.out").unlink(missing_ok=True)


def sink_lines(room, host):
    """The whole lines of a sink, and what a kill left of the next one."""
    path = pathlib.Path(f"{room}/{host}.out")
    *lines, rest = path.read_bytes().split(b"\n") if path.exists() else [b""]
    return lines, rest


def ran(program, room, lines_of):
    write_lines(room, lines_of)
    ended = subprocess.run(words(program, room), timeout=900, stdout=subprocess.PIPE)
    if ended.returncode != 0 or ended.stdout:
        sys.exit(f"the program ended with {ended.returncode}, and reported {ended.stdout!r}")


def prepare(program, room):
    """Makes the nodes, and then subscribes a reader of each host to all of them."""
    ran(program, room, lambda at: [create(sender(at), 0, f"node-{at}")])
    for host, at in zip(HOSTS, range(16)):
        if sink_lines(room, host)[0] != [result(sender(at), 0)]:
            sys.exit("a node wasn't made")
    ran(program, room, lambda at: [subscribe(f"{reader(at)}/1", k, f"node-{k}") for k in range(16)])
    for host, at in zip(HOSTS, range(16)):
        if sink_lines(room, host)[0] != [subscribed(f"{reader(at)}/1", k, f"node-{k}") for k in range(16)]:
            sys.exit("a subscription wasn't made")


def has_begun(room):
    return any(os.path.exists(f"{room}/{host}.out") and os.path.getsize(f"{room}/{host}.out") for host in HOSTS)


def kill_once(program, room, lines, stop, rng):
    """Publishes, and kills the program at some moment after its first line."""
    write_lines(room, lambda at: [publish(sender(at), k, f"node-{at}", f"i{stop}-{k}") for k in range(lines)])
    started = subprocess.Popen(words(program, room))
    until = time.monotonic() + 30
    while time.monotonic() < until and not has_begun(room):
        time.sleep(0.002)
    time.sleep(rng.uniform(0.0, 1.2))
    started.kill()
    started.wait()


class Told:
    """What the address of a stream was told over all stops, in the order of its numbers: each line once."""

    def __init__(self, at):
        self.at, self.lines, self.items, self.repeats = at, [], [], 0

    def take(self, lines):
        """Takes the notices of one stop."""
        for k, line in enumerate(lines):
            number, node, item = self.parts(line)
            if k == 0 and number == len(self.lines) and self.lines:
                self.repeats += 1
                if line != self.lines[-1]:
                    sys.exit(f"notice {number} of {reader(self.at)} came again with another line")
                continue
            if number != len(self.lines) + 1:
                sys.exit(f"{reader(self.at)} was told {number} after {len(self.lines)}")
            if line != notice(reader(self.at), number, node, item):
                sys.exit(f"{reader(self.at)} was told {line!r}")
            self.lines.append(line)
            self.items.append((node, item))

    def parts(self, line):
        tree = json.loads(line)
        items = tree["c"][0]["c"][0]
        return int(tree["a"]["id"][2:]), items["a"]["node"], items["c"][0]["a"]["id"]


def parted(room, at):
    """The replies and the notices of a sink, and what is left of a line behind them."""
    lines, rest = sink_lines(room, HOSTS[at])
    is_told = [b'"id":"n-' in line for line in lines]
    return [it for it, told in zip(lines, is_told) if not told], [it for it, told in zip(lines, is_told) if told], rest


def take_stop(room, stop, told, cut):
    """Takes what one stop wrote: of each stream the notices, and how many publishes were answered."""
    answered = []
    for at in range(16):
        replies, notices, rest = parted(room, at)
        wanted = [published(sender(at), k, f"node-{at}", f"i{stop}-{k}") for k in range(len(replies))]
        if replies != wanted:
            sys.exit(f"a reply on {HOSTS[at]} is missing, out of order, or another one")
        told[at].take(notices)
        if b'"id":"n-' in rest:
            cut.append((at, rest))
        answered.append(len(replies))
    return answered


def check_items(told, answered):
    """All were told of the same, each answered publish is among it, and of the others a front of those that were next."""
    first = told[0].items
    if any(it.items != first for it in told):
        sys.exit("two addresses were told of different items, or in different orders")
    ahead = 0
    for at in range(16):
        got = [item for node, item in first if node == f"node-{at}"]
        wanted, place = [], 0
        for stop, counts in enumerate(answered):
            mine = [item for item in got if item.startswith(f"i{stop}-")]
            if len(mine) < counts[at]:
                sys.exit(f"{counts[at] - len(mine)} publishes of {sender(at)} that were answered are lost")
            ahead = max(ahead, len(mine) - counts[at])
            wanted += [f"i{stop}-{k}" for k in range(len(mine))]
        if got != wanted:
            sys.exit(f"what {sender(at)} published isn't told in its order")
    if ahead > AHEAD:
        sys.exit(f"{ahead} publishes took effect that were not answered")
    return ahead


def main():
    program, times = os.path.abspath(sys.argv[1]), int(sys.argv[2])
    lines = int(sys.argv[3]) if len(sys.argv) > 3 else 100
    with tempfile.TemporaryDirectory(prefix="kill-streams-", dir=sys.argv[4] if len(sys.argv) > 4 else None) as room:
        rng, told, answered, cut = random.Random(1), [Told(at) for at in range(16)], [], []
        prepare(program, room)
        for stop in range(times):
            kill_once(program, room, lines, stop, rng)
            answered.append(take_stop(room, stop, told, cut))
        ran(program, room, lambda at: [])
        take_stop(room, times, told, cut)
        ahead = check_items(told, answered)
        for at, rest in cut:
            if not any(line.startswith(rest) for line in told[at].lines):
                sys.exit(f"of {rest!r} no line came whole")
        count, repeats = sum(sum(counts) for counts in answered), sum(it.repeats for it in told)
        print(
            f"killed {times} times: each of {count} publishes that were answered was there, and at most {ahead} behind them on a stream; "
            f"16 addresses were told of {len(told[0].items)} each, of {repeats} in all twice"
        )


main()
