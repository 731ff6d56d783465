#!/usr/bin/env python3
"""Stores are compacted by the program, and served as the stores that they were made of.

Usage: compact.py PROGRAM [LINES]

What a compacted store begins with is read from its bytes; that it serves on is seen by serving the same lines, LINES of
them (1000), over a store and over the one that it was compacted to: replies and notices are equal byte for byte.
"""
import fcntl
import json
import pathlib
import random
import shutil
import subprocess
import sys
import tempfile

sys.path.insert(0, str(pathlib.Path(__file__).resolve().parent.parent / "lines"))
from stanzas import SERVICE, create, iq, notice, publish, retrieve, subscribe

ANN, BOB = "ann@a.example/1", "bob@b.example/1"
HOSTS = ("a.example", "b.example")
BASE = 5


class Wrong(Exception):
    """Something else came than is wanted."""


def expect(what, came, wanted):
    if came != wanted:
        raise Wrong(f"{what}: came {came!r}, wanted {wanted!r}")


class Room:
    """A folder with stores, and the program that serves and compacts them."""

    def __init__(self, program, folder):
        self.program, self.folder = program, pathlib.Path(folder)

    def path(self, name):
        return self.folder / name

    def bytes_of(self, store):
        return self.path(store).read_bytes()

    def run(self, *words):
        done = subprocess.run([self.program, *map(str, words)], capture_output=True, timeout=120, check=False)
        return done.returncode, done.stdout

    def serve(self, store, lines):
        """Serves for each host its lines, and returns for each what came."""
        words = ["serve", "--service", SERVICE, "--store", self.path(store)]
        for host, own in lines.items():
            self.path(host + ".in").write_bytes(b"".join(line + b"\n" for line in own))
            words += [host, self.path(host + ".in"), self.path(host + ".out")]
        expect("serving", self.run(*words), (0, b""))
        return {host: self.path(host + ".out").read_bytes().splitlines() for host in lines}

    def compact(self, store, new):
        return self.run("compact", self.path(store), self.path(new))


def entries_in(store):
    """The first byte of each entry of a store, with the row of each that is one."""
    frames, at = [], 8
    while store[at : at + 1] == b"\1":
        size = int.from_bytes(store[at + 1 : at + 5], "big")
        frames.append(store[at + 5 : at + 5 + size])
        at += 5 + size
    found = []
    for frame in frames:
        while frame[:1] == bytes([BASE]):
            size = int.from_bytes(frame[1:5], "big")
            found.append(json.loads(frame[5 : 5 + size]))
            frame = frame[5 + size :]
        if frame:
            found.append(frame[0])
    return found


def rows_in(store):
    return [(row["n"], row["a"]) for row in entries_in(store)]


def set_up(room, store):
    """Ann makes a node, to which bob subscribes; her item is published while his host isn't served."""
    room.serve(store, {"a.example": [create(ANN, 1, "news")]})
    room.serve(store, {"b.example": [subscribe(BOB, 2, "news")]})
    room.serve(store, {"a.example": [publish(ANN, 3, "news", "i1")]})


def rows(room):
    """The rows of a store whose notice waits, and those once it was handed."""
    set_up(room, "s")
    expect("compacting", room.compact("s", "t"), (0, b""))
    kinds = [name for name, _ in rows_in(room.bytes_of("t"))]
    expect("rows", kinds, ["node", "affiliation", "subscription", "item", "notice"])
    told = notice("bob@b.example", 1, "news", "i1")
    expect("the notice", room.serve("t", {"b.example": []}), {"b.example": [told]})
    expect("the notice over the old store", room.serve("s", {"b.example": []}), {"b.example": [told]})

    expect("compacting again", room.compact("s", "u"), (0, b""))
    found = rows_in(room.bytes_of("u"))
    expect("rows", [name for name, _ in found], ["node", "affiliation", "subscription", "item", "counter"])
    expect("the counter", found[-1][1], {"handed": "1", "jid": "bob@b.example"})
    came = room.serve("u", {"a.example": [publish(ANN, 4, "news", "i2")], "b.example": []})
    expect("the next notice", came["b.example"], [notice("bob@b.example", 2, "news", "i2")])


def refused(room):
    """Stores that aren't compacted, and new ones that aren't empty; all stay as they are."""
    set_up(room, "s")
    old = room.bytes_of("s")
    room.serve("boot", {"a.example": []})
    occupied = room.bytes_of("boot")
    expect("an occupied store", room.compact("s", "boot"), (10, b"store occupied\n"))
    expect("the occupied store", room.bytes_of("boot"), occupied)
    expect("the store", room.bytes_of("s"), old)

    broken = bytearray(old)
    broken[13] ^= 255
    room.path("broken").write_bytes(broken)
    expect("a damaged store", room.compact("broken", "none"), (5, b"store damaged at 13\n"))
    expect("the damaged store", room.bytes_of("broken"), bytes(broken))
    expect("the new one", entries_in(room.bytes_of("none")), [])

    expect("itself", room.compact("s", "s")[0], 2)
    expect("a store that isn't there", room.compact("nowhere", "empty"), (9, b"open fault\n"))
    expect("what it made", [room.path(name).exists() for name in ("nowhere", "empty")], [False, False])
    missing = room.path("missing") / "it"
    expect("no folder", room.run("compact", room.path("s"), missing), (9, b"open fault\n"))
    with open(room.path("s"), "rb+") as held:
        fcntl.flock(held, fcntl.LOCK_EX)
        expect("a store that is held", room.compact("s", "other"), (9, b"open fault\n"))
    expect("the store", room.bytes_of("s"), old)


def deal(seed, count, first):
    """So many lines of a host's stream each, by people of both hosts, over nodes and leaves of both kinds."""
    dealt = random.Random(seed)
    made = {host: [] for host in HOSTS}
    for number in range(first, first + count):
        host = dealt.choice(HOSTS)
        who, node = f"{dealt.choice('abcd')}@{host}/1", f"n{dealt.randrange(12)}"
        lines = {
            "create": lambda: create(who, number, node),
            "subscribe": lambda: subscribe(who, number, node),
            "publish": lambda: publish(who, number, node, f"i{dealt.randrange(20)}", f"text {number}"),
            "retrieve": lambda: retrieve(who, number, node),
            "whom": lambda: iq(who, number, "get", "pubsub:P(subscriptions)"),
        }
        made[host].append(lines[dealt.choice(sorted(lines))]())
    return made


def serves_on(room, count):
    """The same lines over a store and over its compacted one."""
    for part in range(2):
        for host, lines in deal(part, count, 1 + part * count).items():
            room.serve("s", {host: lines})
    shutil.copy(room.path("s"), room.path("kept"))
    expect("compacting", room.compact("s", "t"), (0, b""))
    expect("the old store", room.bytes_of("s"), room.bytes_of("kept"))
    told = 0
    for host, lines in deal(2, count, 1 + 2 * count).items():
        old, new = room.serve("s", {host: lines})[host], room.serve("t", {host: lines})[host]
        expect(f"what {host} is told", sorted(new), sorted(old))
        for kind in (True, False):
            expect(f"{host}'s lines in order", of_kind(new, kind), of_kind(old, kind))
        told += len(new)
    if told <= count:
        raise Wrong(f"{told} lines came of {count}: no notice is among them")
    expect("compacting once more", room.compact("t", "again")[0], 0)
    return len(room.bytes_of("kept")), len(room.bytes_of("t")), told


def of_kind(lines, notices):
    """The notices among the lines of a sink, or the others: a writer may put these before or behind those."""
    return [line for line in lines if (b'"id":"n-' in line) == notices]


def main():
    program = str(pathlib.Path(sys.argv[1]).resolve())
    count = int(sys.argv[2]) if len(sys.argv) > 2 else 1000
    for check in (rows, refused):
        with tempfile.TemporaryDirectory() as folder:
            check(Room(program, folder))
    with tempfile.TemporaryDirectory() as folder:
        before, after, told = serves_on(Room(program, folder), count)
    print(f"compact: {told} lines equal over a store of {before} bytes and one of {after}")


if __name__ == "__main__":
    main()
