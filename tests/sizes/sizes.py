#!/usr/bin/env python3
"""What takes much memory, where there is enough: no run answers that memory ran out (status 7), and each line gets its reply.

    sizes.py PROGRAM [SECONDS]      SECONDS: most for one run (600)
"""
import json
import pathlib
import subprocess
import sys
import tempfile
import time

HERE = pathlib.Path(__file__).resolve().parent
sys.path.insert(0, str(HERE.parent / "lines"))
from notation import NAMESPACES, PUBSUB, Element
from stanzas import OWNER, SERVICE, asked, create, entry, item, publish, result, retrieve, subscribe

ANN, HOME = "ann@a.example/1", "ann@a.example"
LONGEST = 262_144
LETTERS = "0123456789abcdefghijklmnopqrstuvwxyz"


class Wrong(Exception):
    """Something else came than is wanted."""


class Room:
    """A folder with a store, over which the program serves one host."""

    def __init__(self, program, folder, seconds):
        self.program, self.folder, self.seconds = program, pathlib.Path(folder), seconds
        self.store = self.folder / "store"

    def run(self, lines):
        """Serves the lines, and returns what came. The run ends well, and so does all that is answered."""
        source, sink = self.folder / "in", self.folder / "out"
        source.write_bytes(b"".join(line + b"\n" for line in lines))
        words = [self.program, "serve", "--service", SERVICE, "--store", str(self.store), "a.example", str(source), str(sink)]
        done = subprocess.run(words, capture_output=True, timeout=self.seconds, check=False)
        if (done.returncode, done.stdout) != (0, b""):
            raise Wrong(f"came {done.returncode}, {done.stdout!r}, {done.stderr[-300:]!r}")
        return sink.read_bytes().splitlines()


def expect(what, came, wanted):
    if came != wanted:
        raise Wrong(f"{what}: came {str(came)[:300]}, wanted {str(wanted)[:300]}")


def kinds_of(lines):
    """How often each type of stanza came."""
    kinds = [json.loads(line)["a"]["type"] for line in lines]
    return {kind: kinds.count(kind) for kind in sorted(set(kinds))}


def change(number, line):
    host = b"a.example"
    return b"\1" + len(host).to_bytes(2, "big") + host + number.to_bytes(8, "big") + len(line).to_bytes(4, "big") + line


def frame(body):
    return b"\1" + len(body).to_bytes(4, "big") + body


def entries(room, count):
    """A store with so many entries is opened, and has the last item."""
    with open(room.store, "wb") as store:
        store.write(b"PUBSUBJ2" + frame(b"\0" + len(SERVICE).to_bytes(2, "big") + SERVICE.encode()))
        store.write(frame(change(1, create(ANN, 1, "news"))))
        for number in range(2, count):
            store.write(frame(change(number, publish(ANN, number, "news", f"i{number}"))))
        store.write(b"\0")
    kept = [item(f"i{number}", entry("hi")) for number in range(max(2, count - 10), count)]
    expect("the items", room.run([retrieve(ANN, 1, "news")]), [result(ANN, 1, Element("items", None, {"node": "news"}, kept))])


def nodes(room):
    """One address makes ten thousand nodes, and no more."""
    came = room.run([create(ANN, number, f"n{number}") for number in range(10_001)])
    expect("the nodes", kinds_of(came), {"error": 1, "result": 10_000})
    expect("the last", b'"n":"resource-constraint"' in came[-1] or came[-1], True)
    expect("once more", kinds_of(room.run([create(ANN, 1, "n0"), create(ANN, 2, "more")])), {"error": 2})


def subscriptions(room):
    """A node has 65,536 subscriptions, and no more."""
    lines = [create(ANN, 0, "news"), *(subscribe(f"u{number}@a.example/1", number, "news") for number in range(65_537))]
    came = room.run(lines)
    expect("the subscriptions", kinds_of(came), {"error": 1, "result": 65_537})
    expect("the last", b'"id":"65536"' in came[-1] and b'"type":"error"' in came[-1], True)


def spelled(number):
    """A number as three letters, which are a host."""
    return LETTERS[number // 1296] + LETTERS[number // 36 % 36] + LETTERS[number % 36]


def rows(room):
    """One line sets 4,300 affiliations at a node of an account, and another lists them."""
    wanted = [(spelled(number), "owner") for number in range(4_300)]
    kids = [Element("affiliation", None, {"affiliation": "owner", "jid": jid}, []) for jid, _ in wanted]
    setting = asked(ANN, 2, "set", [Element("affiliations", None, {"node": "home"}, kids)], OWNER, HOME)
    expect("a line's length", len(setting) <= LONGEST, True)
    listing = asked(ANN, 3, "get", [Element("affiliations", None, {"node": "home"}, [])], OWNER, HOME)
    own = asked(ANN, 4, "get", [Element("affiliations", None, {}, [])], target=HOME)
    made, done, listed, mine = room.run([publish(ANN, 1, "home", "x", target=HOME), setting, listing, own])
    expect("the node", b'"type":"result"' in made, True)
    expect("the setting", json.loads(done)["a"]["type"], "result")
    (tree,) = json.loads(listed)["c"]
    found = [(it["a"]["jid"], it["a"]["affiliation"]) for it in tree["c"][0]["c"]]
    expect("the namespace", tree["ns"], NAMESPACES["O"])
    expect("the list", sorted(found), sorted([(HOME, "owner"), *wanted]))
    (tree,) = json.loads(mine)["c"]
    expect("one's own", tree["c"][0]["c"], [{"a": {"affiliation": "owner", "node": "home"}, "n": "affiliation"}])
    expect("its namespace", tree["ns"], PUBSUB)


CASES = {
    "a store of 1,024 entries": lambda room: entries(room, 1_024),
    "a store of 100,000 entries": lambda room: entries(room, 100_000),
    "ten thousand nodes by one address": nodes,
    "65,536 subscriptions at a node": subscriptions,
    "4,300 affiliations in a line, at a node of an account": rows,
}


def main(words):
    program, seconds = str(pathlib.Path(words[0]).resolve()), int(words[1]) if len(words) > 1 else 600
    for name, case in CASES.items():
        began = time.monotonic()
        with tempfile.TemporaryDirectory(prefix="pubsubd-sizes-") as folder:
            try:
                case(Room(program, folder, seconds))
            except Wrong as wrong:
                print(f"FAIL {name}: {wrong}")
                return 1
        print(f"ok   {name}, in {time.monotonic() - began:.0f} s", flush=True)
    return 0


if __name__ == "__main__":
    if len(sys.argv) < 2:
        sys.exit(__doc__.strip())
    sys.exit(main(sys.argv[1:]))
