#!/usr/bin/env python3
"""Whole runs of two streams: what their stores have then, and what is told where something can't be opened or read.

Usage: runs.py PROGRAM

    empty     without lines a store has the boot and the end of each stream, and a next run adds its own
    told      a subscriber on another stream is told once, and of what is published while its stream isn't served later
    openings  a store, a source or a sink that can't be opened leaves the store as it was
    sources   a source that fails ends its stream alone, and what came before is answered
    moments   the moment of a publish is the clock's, and goes with the item when it is told later
    unseen    a stranger is told the same over two stores that differ in an item which he may never read, and again after a crash
"""
import os
import pathlib
import subprocess
import sys
import tempfile
import time

TESTS = pathlib.Path(__file__).resolve().parent.parent
sys.path[:0] = [str(TESTS / "lines"), str(TESTS / "memory")]
from cases import compiled
from notation import NAMESPACES, Element, line_of
from operating import Wrong
from stanzas import SERVICE, asked, create, entry, iq, is_notice, item, notice, publish, published, result, subscribe, subscribed

HOSTS = ("a.example", "b.example")
ANN, BOB, ALF = "ann@a.example/1", "bob@b.example/1", "alf@b.example/1"
BOOT, CHANGE, HANDED, GONE, CHANGE_AT = range(5)
KINDS = ("Boot", "Change", "Handed", "Gone", "Change")
HEAD = b"PUBSUBJ2"


def expect(what, came, wanted):
    if came != wanted:
        raise Wrong(f"{what}: came {came!r}, wanted {wanted!r}")


class Entry:
    """An entry of a store: its bytes, its kind, the address or the host that it names, and its moment if it has one."""

    def __init__(self, text):
        size = int.from_bytes(text[1:3], "big")
        self.kind, self.who, at, self.moment = text[0], text[3 : 3 + size].decode(), 3 + size, None
        if self.kind in (CHANGE, CHANGE_AT):
            at += 8
            if self.kind == CHANGE_AT:
                self.moment, at = int.from_bytes(text[at : at + 8], "big"), at + 8
            at += 4 + int.from_bytes(text[at : at + 4], "big")
        self.text = text[:at]


def entries_in(store):
    """The entries of a store's bytes."""
    found, at = [], len(HEAD)
    while store[at : at + 1] == b"\x01":
        at, end = at + 5, at + 5 + int.from_bytes(store[at + 1 : at + 5], "big")
        while at < end:
            found.append(Entry(store[at:end]))
            at += len(found[-1].text)
    return found


def list_of(store):
    return [f"{KINDS[it.kind]} {it.who}" for it in entries_in(store)]


class Room:
    """A folder with a store, over which the program serves."""

    def __init__(self, program, folder):
        self.program, self.folder = program, folder
        self.store = folder / "store"

    def words(self, hosts, **others):
        """The words of a run; others takes the place of a file by its name."""
        told = ["serve", "--service", SERVICE, "--store", others.get("store", self.store)]
        for host in hosts:
            at = host[0]
            told += [host, others.get(f"{at}_in", self.folder / f"{at}.in"), others.get(f"{at}_out", self.folder / f"{at}.out")]
        return [self.program, *map(str, told)]

    def run(self, lines, more=(), **others):
        """Serves for each host its lines, or its bytes, and returns the status, the report and what came of each."""
        for host, own in lines.items():
            text = own if isinstance(own, bytes) else b"".join(line + b"\n" for line in own)
            (self.folder / f"{host[0]}.in").write_bytes(text)
            (self.folder / f"{host[0]}.out").unlink(missing_ok=True)
        environment = {**os.environ, **dict(more)}
        done = subprocess.run(self.words(lines, **others), capture_output=True, timeout=60, check=False, env=environment)
        sinks = {host: self.folder / f"{host[0]}.out" for host in lines}
        return done.returncode, done.stdout, {host: sink.read_bytes().splitlines() if sink.exists() else None for host, sink in sinks.items()}

    def serves(self, lines):
        """A run that ends well; what came of each host."""
        status, report, came = self.run(lines)
        expect("a run", (status, report), (0, b""))
        return came

    def entries(self):
        return entries_in(self.store.read_bytes())


def empty(room):
    """A header of 8 bytes, frames of 22, 17 and 17, and the closed gate; the ends of two streams may share a frame, whose gate and length are there once then."""
    room.serves({host: [] for host in HOSTS})
    boot, *gone = list_of(room.store.read_bytes())
    expect("the entries of two streams", (boot, sorted(gone)), ("Boot pubsub.example", ["Gone a.example", "Gone b.example"]))
    if room.store.stat().st_size not in (60, 65):
        raise Wrong(f"a store without lines has {room.store.stat().st_size} bytes")
    room.store.unlink()
    room.serves({"a.example": []})
    expect("the bytes of one stream", room.store.stat().st_size, 48)
    room.store.unlink()
    expect("a node", room.serves({"a.example": [create(ANN, 1, "news")]})["a.example"], [result(ANN, 1)])
    (again,) = room.serves({"a.example": [create(ANN, 2, "news")]})["a.example"]
    if b'"conflict"' not in again:
        raise Wrong(f"a node is made twice: {again!r}")
    run = ["Boot pubsub.example", "Gone a.example"]
    expect("the entries of two runs", list_of(room.store.read_bytes()), [run[0], "Change a.example", run[1], *run])


def told(room):
    nothing = {host: [] for host in HOSTS}
    came = room.serves({"a.example": [create(ANN, 1, "news")], "b.example": [create(BOB, 1, "other")]})
    expect("two nodes", came, {"a.example": [result(ANN, 1)], "b.example": [result(BOB, 1)]})
    came = room.serves({"a.example": [], "b.example": [subscribe(BOB, 2, "news")]})
    expect("a subscription", came, {"a.example": [], "b.example": [subscribed(BOB, 2, "news")]})
    came = room.serves({"a.example": [publish(ANN, 3, "news", "i1")], "b.example": []})
    expect("an item", came, {"a.example": [published(ANN, 3, "news", "i1")], "b.example": [notice("bob@b.example", 1, "news", "i1")]})
    expect("the next run", room.serves(nothing), nothing)
    expect("an item for another host", room.serves({"a.example": [publish(ANN, 4, "news", "i2")]}), {"a.example": [published(ANN, 4, "news", "i2")]})
    expect("the run of that host", room.serves(nothing), {"a.example": [], "b.example": [notice("bob@b.example", 2, "news", "i2")]})
    expect("and the next run", room.serves(nothing), nothing)


def openings(room):
    """The store is opened first, and then the source and the sink of each stream. Where the report can't be written either, the status is the same."""
    missing, line = room.folder / "missing" / "it", [create(ANN, 1, "news")]
    for what in ("store", "a_in", "a_out", "b_in", "b_out"):
        room.store.unlink(missing_ok=True)
        status, report, came = room.run({"a.example": line, "b.example": []}, **{what: missing})
        expect(what, (status, report), (9, b"open fault\n"))
        expect(f"{what}: the store", room.store.exists() and room.store.read_bytes(), False if what == "store" else b"")
        if came["a.example"]:
            raise Wrong(f"{what}: a line is answered by {came['a.example']}")
    with open("/dev/full", "wb") as full:
        done = subprocess.run(room.words(HOSTS, a_in=missing), stdout=full, stderr=subprocess.PIPE, timeout=60, check=False)
    expect("a report that can't be written", done.returncode, 9)


def source_fails(room, library, lines, call):
    failing = {"LD_PRELOAD": library, "FAIL_FILE": str(room.folder / "a.in"), "FAIL_CALL": str(call)}
    status, report, came = room.run(lines, more=failing)
    expect(f"a source that fails at its read {call}", (status, report), (3, b"stream fault\n"))
    return came


def sources(room):
    """One read takes 4096 bytes at most: of more of them, those of the first read hold whole lines and a part of the next."""
    library = compiled(TESTS / "faults" / "fail.c", room.folder)
    other = [create(BOB, 1, "other")]
    for call, replies in ((1, []), (2, [result(ANN, 1)])):
        room.store.unlink(missing_ok=True)
        came = source_fails(room, library, {"a.example": [create(ANN, 1, "news")], "b.example": other}, call)
        expect("what came of the streams", came, {"a.example": replies, "b.example": [result(BOB, 1)]})
        ended = {it.who for it in room.entries() if it.kind == GONE}
        expect("the streams that ended", ended, set(HOSTS))
        expect("the next run", room.serves({host: [] for host in HOSTS}), {host: [] for host in HOSTS})
    room.store.unlink()
    lines = [create(ANN, 1, "news"), *(publish(ANN, number, "news", f"k{number}") for number in range(2, 32))]
    text = b"".join(line + b"\n" for line in lines)
    replies = [result(ANN, 1), *(published(ANN, number, "news", f"k{number}") for number in range(2, 32))]
    came = source_fails(room, library, {"a.example": text}, 2)
    expect("what came before a fault", came["a.example"], replies[: text[:4096].count(b"\n")])


def moments(room):
    """Ann's item is for bob, who is in her roster; he shows himself in a later run, and says that he wants its node."""
    befriend = iq(ANN, 2, "set", "query:RO(item{jid=bob@b.example subscription=from})")
    before = int(time.time())
    room.serves({"a.example": [publish(ANN, 1, "urn:t", "m", target=None), befriend], "b.example": []})
    after = int(time.time())
    told = [it.moment for it in room.entries() if it.kind in (CHANGE, CHANGE_AT)]
    if len(told) != 2 or not all(it is not None and before <= it <= after for it in told):
        raise Wrong(f"the moments of changes: {told}, between {before} and {after}")
    shows = line_of(Element("presence", None, {"from": BOB, "to": SERVICE}, [Element("c", NAMESPACES["K"], {"hash": "sha-1", "node": "http://c.example", "ver": "AAAA"}, [])]))
    wants = iq(BOB, 6, "result", "query:DI{node=http://c.example#AAAA}(feature{var=urn:t+notify})")
    while int(time.time()) == told[0]:
        time.sleep(0.1)
    _, last = room.serves({"a.example": [], "b.example": [shows, wants]})["b.example"]
    stamp = time.strftime("%Y-%m-%dT%H:%M:%SZ", time.gmtime(told[0]))
    items = Element("items", None, {"node": "urn:t"}, [item("m", entry("hi"))])
    event, delay = Element("event", NAMESPACES["E"], {}, [items]), Element("delay", "urn:xmpp:delay", {"stamp": stamp}, [])
    wanted = Element("message", None, {"from": "ann@a.example", "id": "n-2", "to": BOB, "type": "headline"}, [event, delay])
    expect("what is told later", last, line_of(wanted))


def parted(lines):
    return [it for it in lines if not is_notice(it)], [it for it in lines if is_notice(it)]


def unseen(room):
    """In one store the node holds an item, in the other none, and its owner is answered differently. Of each the crash is just before the stranger's notice is recorded as handed out."""
    shut = asked(ANN, 1, "set", "create{node=w} configure(@node_config{access_model=whitelist})")
    kept = publish(ANN, 2, "w", "x")
    changes = [asked(ANN, 3, "set", "retract{node=w}(item{id=x})"), publish(ANN, 4, "w", "y")]
    strange = [create(ALF, 5, "alf"), subscribe(ALF, 6, "alf"), asked(ALF, 7, "set", "publish{node=alf}(item(entry:urn:t))")]
    name = "auto-1-alf@b.example"
    replies = [result(ALF, 5), subscribed(ALF, 6, "alf"), published(ALF, 7, "alf", name)]
    event = Element("event", NAMESPACES["E"], {}, [Element("items", None, {"node": "alf"}, [item(name, entry(""))])])
    told = line_of(Element("message", None, {"from": SERVICE, "id": "n-1", "to": "alf@b.example", "type": "headline"}, [event]))
    for begins, found in (([shut, kept], True), ([shut], False)):
        room.store.unlink(missing_ok=True)
        room.serves({"a.example": begins, "b.example": []})
        came = room.serves({"a.example": changes, "b.example": strange})
        retracted, last = came["a.example"]
        expect("the owner's answers", (b'"item-not-found"' not in retracted, last), (found, published(ANN, 4, "w", "y")))
        expect("the stranger's lines", parted(came["b.example"]), (replies, [told]))
        body = b""
        for it in room.entries():
            if it.kind == HANDED:
                break
            body += it.text
        room.store.write_bytes(HEAD + b"\x01" + len(body).to_bytes(4, "big") + body + b"\0")
        expect("after the crash", room.serves({host: [] for host in HOSTS}), {"a.example": [], "b.example": [told]})


def main():
    if len(sys.argv) != 2:
        sys.exit(__doc__.strip())
    program = str(pathlib.Path(sys.argv[1]).resolve())
    for part in (empty, told, openings, sources, moments, unseen):
        with tempfile.TemporaryDirectory(prefix="pubsubd-runs-") as folder:
            try:
                part(Room(program, pathlib.Path(folder)))
            except Wrong as wrong:
                print(f"FAIL {part.__name__}: {wrong}")
                sys.exit(1)
        print(f"ok   {part.__name__}", flush=True)


if __name__ == "__main__":
    main()
