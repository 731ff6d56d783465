#!/usr/bin/env python3
"""Tries the program's follower: what it answers beside the service that it follows, and feeds in pieces.

Usage: run.py PROGRAM [SEED [COUNT]]

- A store that was booted and nothing else is fed as one record of 29 bytes, and from a number past it as none.
- All lines of the cases on one host (tests/lines) are served, each with a question behind it, by whose answer its own reply is told from the next one's. Then a follower gets the same lines, each behind
  the entries that the service had at it: it must answer the same, but a request that made an entry by `not-allowed`, and nothing where such a one gets no reply.
- A feed of COUNT records (100,000) comes in pieces of 1 to 65,536 bytes, by the seed, with lines between them; what is asked at the end is answered at all of them.
- A record that is bad, that leaves a gap or that holds another entry than the one at its place ends the run with status 11, and its offset is reported, however the bytes before it were cut.
"""
import array
import fcntl
import json
import os
import pathlib
import random
import struct
import subprocess
import sys
import tempfile
import termios
import threading
import time

HERE = pathlib.Path(__file__).resolve().parent
ROOT = HERE.parent.parent
sys.path.insert(0, str(ROOT / "tests" / "lines"))
import stanzas

LINES = ROOT / "crates" / "pubsubd" / "data" / "in.txt"
BARRIER = b'{"a":{"from":"barrier@a.example/1","id":"barrier","to":"pubsub.example","type":"get"},"c":[{"n":"query","ns":"http://jabber.org/protocol/disco#info"}],"n":"iq"}'
HEAD = struct.Struct(">QI")
# A follower's one read.
ROOM = 65_536


def records_in(feed):
    """Yields each record of the feed: its bytes, and its entry's."""
    at = 0
    while at < len(feed):
        size = HEAD.size + HEAD.unpack_from(feed, at)[1]
        yield feed[at : at + size], feed[at + HEAD.size : at + size]
        at += size


def line_of(entry):
    """Returns the number of the line that made the entry, if one did."""
    if entry[0] not in (1, 4):
        return None
    length = int.from_bytes(entry[1:3], "big")
    return int.from_bytes(entry[3 + length : 11 + length], "big")


def is_notice(line):
    return json.loads(line)["a"].get("id", "").startswith("n-")


def is_barrier(line):
    return json.loads(line)["a"].get("id") == "barrier"


def parted(replies):
    """Returns the reply to each line that has a barrier behind it, or none."""
    out, last = [], None
    for reply in replies:
        if is_barrier(reply):
            out.append(last)
            last = None
        else:
            last = reply
    return out


def served(program, room, lines):
    """Serves the lines, and returns the replies."""
    (room / "in").write_bytes(b"".join(line + b"\n" for line in lines))
    words = [program, "serve", "--service", "pubsub.example", "--store", room / "store", "a.example", room / "in", room / "out"]
    run = subprocess.run(words, capture_output=True)
    if run.returncode != 0:
        sys.exit(f"serve: status {run.returncode}, {run.stdout!r}")
    return [line for line in (room / "out").read_bytes().split(b"\n")[:-1] if not is_notice(line)]


def fed(program, room, start=0):
    """Returns the records of the store from that place on."""
    run = subprocess.run([program, "feed", room / "store", str(start), room / "feed"], capture_output=True)
    if run.returncode != 0:
        sys.exit(f"feed: status {run.returncode}, {run.stdout!r}")
    return (room / "feed").read_bytes()


class Follower:
    """`pubsubd follow` over pipes, whose replies are read as they come."""

    def __init__(self, program, room):
        pipes = [room / name for name in ("f.feed", "f.in", "f.out")]
        for pipe in pipes:
            pipe.unlink(missing_ok=True)
            os.mkfifo(pipe)
        self.run = subprocess.Popen([program, "follow", "a.example", *pipes], stdout=subprocess.PIPE)
        self.feed, self.give = open(pipes[0], "wb", buffering=0), open(pipes[1], "wb", buffering=0)
        self.replies = []
        self.reader = threading.Thread(target=self.read, args=[open(pipes[2], "rb")])
        self.reader.start()

    def read(self, sink):
        with sink:
            self.replies.extend(line[:-1] for line in sink)

    def take(self, piece):
        """Writes a piece of the feed, and waits until it is read."""
        rest = memoryview(piece)
        while rest:
            rest = rest[self.feed.write(rest) :]
        count = array.array("i", [1])
        while count[0] and self.run.poll() is None:
            time.sleep(0.0002)
            fcntl.ioctl(self.feed, termios.FIONREAD, count)

    def end(self):
        """Ends the feed and the input, and returns the status and the report."""
        self.feed.close()
        self.give.close()
        report = self.run.stdout.read()
        self.run.wait()
        self.reader.join()
        return self.run.returncode, report


def address(text):
    """An address as the service writes it: its local part and its host in lower case."""
    bare, slash, resource = text.partition("/")
    return bare.lower() + slash + resource


def refusal(line):
    """What a follower answers to a stanza that would change something: an error, or nothing."""
    tree = json.loads(line)
    attributes, name = tree["a"], tree["n"]
    if name == "presence" or (name == "iq" and attributes["type"] in ("result", "error")):
        return None
    target = attributes.get("to") or attributes["from"].partition("/")[0]
    wanted = {"from": address(target), "to": address(attributes["from"]), "type": "error"}
    if "id" in attributes:
        wanted["id"] = attributes["id"]
    plain = {"n": "not-allowed", "ns": "urn:ietf:params:xml:ns:xmpp-stanzas"}
    return {"a": wanted, "c": [{"a": {"type": "cancel"}, "c": [plain], "n": "error"}], "n": name}


def booted(program, room):
    """The feed of a store with one entry."""
    service = b"pubsub.example"
    entry = b"\x00\x00\x0e" + service
    (room / "store").write_bytes(b"PUBSUBJ2" + b"\x01" + len(entry).to_bytes(4, "big") + entry + b"7")
    for start, wanted in ((0, HEAD.pack(0, len(entry)) + entry), (1, b""), (2**64 - 1, b"")):
        if fed(program, room, start) != wanted:
            sys.exit(f"feed: from {start}: {(room / 'feed').read_bytes()!r}")
    return f"a store of one entry is fed as {HEAD.size + len(entry)} bytes"


def followed(program, room, lines, feed):
    """Has a follower answer the lines, each at the entries that the service had at it, and returns the replies and the numbers of the lines that made entries.

    The follower makes one read of at most ROOM bytes before each line; the rest of a longer record comes before the barrier that follows.
    """
    follower = Follower(program, room)
    makers = [line_of(entry) for _, entry in feed]
    at, rest = 0, b""
    for number, line in enumerate(lines, 1):
        while at < len(feed) and (makers[at] is None or makers[at] < number):
            rest += feed[at][0]
            at += 1
        piece, rest = rest[:ROOM], rest[ROOM:]
        if rest and line != BARRIER:
            sys.exit(f"follow: line {number} would come before its entries")
        follower.take(piece or feed[0][0])
        follower.give.write(line + b"\n")
    follower.give.close()
    follower.feed.write(rest + b"".join(record for record, _ in feed[at:]))
    if follower.end() != (0, b""):
        sys.exit(f"follow: status {follower.run.returncode}")
    return follower.replies, {maker for maker in makers if maker is not None}


def beside_the_service(program, room):
    """Each line at the entries that the service had at it."""
    cases = LINES.read_bytes().split(b"\n")[:-1]
    lines = [line for case in cases for line in (case, BARRIER)]
    replies = parted(served(program, room, lines))
    came, changed = followed(program, room, lines, list(records_in(fed(program, room))))
    got = parted(came)
    if len(got) != len(cases):
        sys.exit(f"follow: {len(got)} answers to {len(cases)} lines")
    for number, (line, first, second) in enumerate(zip(cases, replies, got)):
        if 2 * number + 1 in changed:
            wanted = refusal(line)
            if (json.loads(second) if second else None) != wanted:
                sys.exit(f"follow: line {number + 1}, which changes something, gets {second!r}: {line!r}")
        elif first != second:
            sys.exit(f"follow: line {number + 1} gets {second!r}, of the service {first!r}: {line!r}")
    refused_ones = sum(2 * number + 1 in changed for number in range(len(cases)))
    return f"{len(cases)} lines are answered as by the service, {refused_ones} of which change something and are refused"


def in_pieces(program, room, seed, count):
    """A feed of so many records, and a front of it again, in pieces by the seed."""
    dice = random.Random(seed)
    served(program, room, [stanzas.create(f"maker{number % 97}@a.example/1", number, f"node-{number}") for number in range(1, count + 1)])
    feed = fed(program, room)
    follower = Follower(program, room)
    at, pieces = 0, 0
    while at < len(feed):
        size = dice.randint(1, 65_536)
        follower.take(feed[at : at + size])
        at, pieces = at + size, pieces + 1
        follower.give.write(BARRIER + b"\n")
    for record, _ in list(records_in(feed[: dice.randint(1, len(feed))]))[:-1][:1000]:
        follower.take(record)
        follower.give.write(BARRIER + b"\n")
    follower.feed.close()
    follower.give.write(stanzas.iq("ann@a.example/1", 1, "get", "query:DI{node=node-%d}" % count) + b"\n")
    status, report = follower.end()
    if (status, report) != (0, b"") or b'"result"' not in follower.replies[-1]:
        sys.exit(f"follow: status {status}, {report!r}, {follower.replies[-1]!r}")
    return f"{count} records in {pieces} pieces, and some again: the last node is there"


def refused(program, room, seed):
    """What isn't taken is named at its offset."""
    dice = random.Random(seed)
    served(program, room, [stanzas.create("ann@a.example/1", number, f"node-{number}") for number in range(1, 300)])
    feed = fed(program, room)
    taken = [record for record, _ in records_in(feed)]
    whole, next_place, entry = feed, len(taken), taken[0][HEAD.size :]
    nobody = b"\x02\x00\x0bx@a.example"
    other = b"\x03\x00\x09a.example"
    tries = {
        "too long": HEAD.pack(next_place, (1 << 30) + 1),
        "no entry": HEAD.pack(next_place, 1) + b"\x09",
        "not accepted": HEAD.pack(next_place, len(nobody)) + nobody,
        "a gap": HEAD.pack(next_place + 1, len(entry)) + entry,
        "another entry": HEAD.pack(0, len(other)) + other,
        "no entry at a place that is there": HEAD.pack(0, 1) + b"\x09",
    }
    for what, record in tries.items():
        follower = Follower(program, room)
        at = 0
        while at < len(whole):
            size = dice.randint(1, 4096)
            follower.take(whole[at : at + size])
            at += size
            follower.give.write(BARRIER + b"\n")
        try:
            follower.take(record)
        except BrokenPipeError:
            pass
        follower.run.wait(60)
        status, report = follower.run.returncode, follower.run.stdout.read()
        follower.reader.join()
        if (status, report) != (11, b"feed bad at %d\n" % len(whole)):
            sys.exit(f"follow: {what} at {len(whole)}: status {status}, {report!r}")
    return f"each of {len(tries)} bad records ends the run with status 11 at its offset"


def main():
    program = pathlib.Path(sys.argv[1]).resolve()
    seed, count = (int(word) for word in [*sys.argv[2:], *["1", "100000"][len(sys.argv) - 2 :]])
    for tried, words in ((booted, ()), (beside_the_service, ()), (in_pieces, (seed, count)), (refused, (seed,))):
        with tempfile.TemporaryDirectory(prefix="pubsubd-follow-") as room:
            print(tried(program, pathlib.Path(room), *words), flush=True)


if __name__ == "__main__":
    main()
