"""Whole runs of the program over a store, each with the runs before it, for tests in which something fails: what a run tells and leaves, and what may be left
of that where it failed."""
import json
import os
import pathlib
import shutil
import subprocess
import sys

HERE = pathlib.Path(__file__).resolve().parent
sys.path.insert(0, str(HERE.parent / "lines"))
from notation import Element, form, line_of
from stanzas import SERVICE, asked, create, is_notice, item, publish, subscribe

ANN, BOB = "ann@a.example/1", "bob@b.example/1"
HOSTS = ("a.example", "b.example")
# A run takes a fraction of a second; one that takes so many seconds hangs, unless the machine is busy or the program slow.
SECONDS = int(os.environ.get("RUN_SECONDS", "20"))


class Wrong(Exception):
    """Something else came than may."""



def options(name, **fields):
    return form(name, "submit", [(var, None, [value]) for var, value in fields.items()])


def authorized(number):
    """A node whose subscribers wait for its owner."""
    configure = Element("configure", None, {}, [options("node_config", access_model="authorize")])
    return asked(ANN, number, "set", [Element("create", None, {"node": "q"}, []), configure])


def approve(number):
    fields = options("subscribe_authorization", node="q", subscriber_jid="bob@b.example", allow="1")
    return line_of(Element("message", None, {"from": ANN, "id": str(number), "to": SERVICE}, [fields]))


def bookmark(number):
    """A private item at home, behind options that make its node (XEP-0402)."""
    conference = Element("conference", "urn:xmpp:bookmarks:1", {"autojoin": "true"}, [])
    one = Element("publish", None, {"node": "urn:xmpp:bookmarks:1"}, [item(f"room{number}@muc.example", conference)])
    wanted = options("publish-options", persist_items="true", max_items="max", send_last_published_item="never", access_model="whitelist")
    return asked(ANN, number, "set", [one, Element("publish-options", None, {}, [wanted])], target="ann@a.example")


# Each case: the runs before it, and its own, each with the lines of the two hosts. A line's id is its number on its stream.
CASES = {
    "an opening": ([], ([], [])),
    "an opening over a boot": ([([], [])], ([], [])),
    "a create": ([], ([create(ANN, 1, "news")], [])),
    "a node whose subscribers wait": ([], ([authorized(1)], [])),
    "a subscription that waits": ([([authorized(1)], [])], ([], [subscribe(BOB, 1, "q"), subscribe(BOB, 2, "q")])),
    "an approval": ([([authorized(1)], []), ([], [subscribe(BOB, 1, "q")])], ([publish(ANN, 1, "q", "x"), approve(2), publish(ANN, 3, "q", "y")], [])),
    "a publish": ([([create(ANN, 1, "news")], [])], ([publish(ANN, 1, "news", "i1")], [])),
    "three notices": (
        [([create(ANN, 1, "news")], []), ([], [subscribe(BOB, 1, "news")])],
        ([publish(ANN, number, "news", f"i{number}") for number in (1, 2, 3)], []),
    ),
    "three notices, of which the second can't be written": (
        [([create(ANN, 1, "news")], []), ([], [subscribe(BOB, 1, "news")])],
        ([publish(ANN, number, "news", f"i{number}") for number in (1, 2, 3)], []),
    ),
    "notices that wait": (
        [([create(ANN, 1, "news")], []), ([], [subscribe(BOB, 1, "news")]), ([publish(ANN, 1, "news", "i1"), publish(ANN, 2, "news", "i2")], None)],
        ([], []),
    ),
    "an audience": (
        [
            ([create(ANN, 1, "news")], []),
            ([subscribe(f"sub{k}@a.example/1", k, "news") for k in range(200)], [subscribe(f"sub{k}@b.example/1", k, "news") for k in range(2)]),
        ],
        ([publish(ANN, number, "news", f"i{number}") for number in (1, 2, 3)], []),
    ),
    "forty bookmarks": ([], ([bookmark(number) for number in range(1, 41)], [])),
    "two creates at once": ([], ([create(ANN, 1, "news")], [create(BOB, 1, "other")])),
}
# Of these a call on a file fails in the whole run too, which so ends with status 3: the file, its host, and the number of the call, as fail.c of tests/faults counts.
FAILING = {"three notices, of which the second can't be written": ("sink", "b.example", 2)}
STREAM = 3


def entries_in(store):
    """The entries of a store: of each its tag, its host or address, and the line of a change."""
    at, found = 8, []
    while store[at : at + 1] == b"\1":
        at, end = at + 5, at + 5 + int.from_bytes(store[at + 1 : at + 5], "big")
        while at < end:
            tag = store[at]
            size = int.from_bytes(store[at + 1 : at + 3], "big")
            text, line = store[at + 3 : at + 3 + size].decode(), None
            at += 3 + size
            if tag in (1, 4):
                line = int.from_bytes(store[at : at + 8], "big")
                at += 8 * (2 if tag == 4 else 1)
                at += 4 + int.from_bytes(store[at : at + 4], "big")
            found.append((tag, text, line))
    return found


def changes_in(store):
    """The host and the line of each change of a store."""
    return [(text, line) for tag, text, line in entries_in(store) if tag in (1, 4)]


def ends_in(store):
    """The hosts whose end the last run recorded."""
    ends = []
    for tag, text, _ in entries_in(store):
        ends = [] if tag == 0 else ends + [text] * (tag == 3)
    return ends


class Room:
    """A folder with a store, over which the program runs."""

    def __init__(self, program, folder):
        self.program, self.folder = program, pathlib.Path(folder)
        self.store = self.folder / "store"

    def source(self, host):
        return self.folder / f"{host}.in"

    def sink(self, host):
        return self.folder / f"{host}.out"

    def run(self, lines, environment=None):
        """Serves the hosts that have lines, if only none, and returns the status and what came of each, by whole lines."""
        words = [self.program, "serve", "--service", SERVICE, "--store", str(self.store)]
        for host, own in zip(HOSTS, lines):
            if own is not None:
                self.source(host).write_bytes(b"".join(line + b"\n" for line in own))
                self.sink(host).write_bytes(b"")
                words += [host, str(self.source(host)), str(self.sink(host))]
        done = subprocess.run(words, env={**os.environ, **(environment or {})}, capture_output=True, timeout=SECONDS, check=False)
        came = {host: self.sink(host).read_bytes().split(b"\n")[:-1] for host, own in zip(HOSTS, lines) if own is not None}
        return done.returncode, came


def parted(lines):
    """Replies, and notices, of a sink."""
    return [it for it in lines if not is_notice(it)], [it for it in lines if is_notice(it)]


def told(lines):
    """The notices of a sink by their addresses."""
    found = {}
    for line in parted(lines)[1]:
        found.setdefault(json.loads(line)["a"]["to"], []).append(line)
    return found


def answered(lines):
    """The lines of a stream that were answered by a result."""
    found = [json.loads(it)["a"] for it in parted(lines)[0]]
    return {int(it["id"]) for it in found if it.get("type") == "result"}


class Whole:
    """A case: the store before it, and what its whole run says and leaves."""

    def __init__(self, name, program, folder, libraries=()):
        """Runs what stands before it, and then it, in this folder, which is empty. The libraries are loaded before the C library."""
        self.name, self.program, self.libraries = name, program, libraries
        before, self.lines = CASES[name]
        room = Room(program, folder)
        for lines in before:
            if room.run(lines)[0]:
                raise Wrong(f"{name}: the runs before it")
        self.before = room.store.read_bytes() if before else b""
        self.status, self.came = room.run(self.lines, self.environment(room))
        self.must_be_whole(self.status)
        self.changes = self.new_changes(room)

    def environment(self, room, **more):
        """The environment of a run of the case."""
        if self.name in FAILING:
            kind, host, number = FAILING[self.name]
            more.update(FAIL_FILE=str(getattr(room, kind)(host)), FAIL_CALL=str(number))
        return {"LD_PRELOAD": ":".join(self.libraries), **more}

    def must_be_whole(self, status):
        if status != (STREAM if self.name in FAILING else 0):
            raise Wrong(f"{self.name}: the whole run ended with {status}")

    def room(self, folder):
        """A folder with the store that stands before the case."""
        room = Room(self.program, folder)
        room.store.write_bytes(self.before)
        return room

    def new_changes(self, room):
        return changes_in(room.store.read_bytes())[len(changes_in(self.before)) :]

    def must_be_front(self, status, came):
        """The replies of each host and the notices of each address are a front of those of the whole run, and all of them where nothing failed."""
        for host, lines in came.items():
            got, whole = told(lines), told(self.came[host])
            pairs = [(parted(lines)[0], parted(self.came[host])[0]), *((got.get(it, []), whole.get(it, [])) for it in got | whole)]
            for got, whole in pairs:
                if got != whole[: len(got)] or (status == 0 and got != whole):
                    raise Wrong(f"status {status}, and {host} was told {got}")

    def must_be_kept(self, status, came, room):
        """The store has a front of each host's changes, and each that was answered."""
        changes = self.new_changes(room)
        for host in HOSTS:
            own, whole = ([line for it, line in every if it == host] for every in (changes, self.changes))
            if own != whole[: len(own)]:
                raise Wrong(f"status {status}, and the changes of {host} are {own}, of {whole}")
            lost = answered(came.get(host, [])) & set(whole) - set(own)
            if lost:
                raise Wrong(f"status {status}, and of {host} the answered lines {sorted(lost)} are lost")

    def must_serve_on(self, status, room):
        """The store opens and is served, and what each host is told then."""
        again, came = room.run(([], []))
        if again:
            raise Wrong(f"status {status}, and its store opens with {again}")
        return came


def compiled(source, folder):
    """A file of C as a library that can be loaded before the C library."""
    library = f"{folder}/{source.stem}.so"
    compiler = shutil.which("cc") or shutil.which("clang") or "gcc"
    subprocess.run([compiler, "-O2", "-shared", "-fPIC", "-o", library, str(source), "-ldl"], check=True)
    return library
