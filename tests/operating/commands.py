#!/usr/bin/env python3
"""What an operator meets at the commands that read a store, follow a feed or mirror a node: words that are none, words spelled otherwise, a mirror's reports, what isn't there, a damaged store, one of version 1, and one that is held.

Usage: commands.py PROGRAM
"""
import os
import pathlib
import subprocess
import sys
import tempfile
import time

sys.path.insert(0, str(pathlib.Path(__file__).resolve().parent.parent / "lines"))
from notation import NAMESPACES, PUBSUB, Element, line_of
from operating import LINE, Wrong, refuses, reply_in, words
from stanzas import SERVICE, entry, notice, result

USAGE = (
    b"usage: pubsubd serve --service HOST --store PATH HOST IN OUT [HOST IN OUT].. | rehearse SEED COUNT | compact PATH NEW"
    b" | explain PATH ADDRESS SERVICE NODE | readers PATH SERVICE NODE | feed PATH FROM OUT | follow HOST FEED IN OUT"
    b" | mirror SERVICE NODE ADDRESS MAX IN\n"
)


BOB = "bob@b.example"


def retracted(number, name):
    """The line that tells of an item that was retracted."""
    items = Element("items", None, {"node": "news"}, [Element("retract", None, {"id": name}, [])])
    event = Element("event", NAMESPACES["E"], {}, [items])
    return line_of(Element("message", None, {"from": SERVICE, "id": f"n-{number}", "to": BOB, "type": "headline"}, [event]))


def shown(name):
    """The line of an item in a mirror's report."""
    return line_of(Element("item", PUBSUB, {"id": name}, [entry("hi")]))


FIRST, REPLY = notice(BOB, 1, "news", "i1"), result("ann@a.example/1", 1)

# What a mirror is told of: how many items stay, the lines of its source, its status and the items of its report; without items the usage.
MIRRORED = {
    "told twice, and a reply": ("10", [FIRST, FIRST, REPLY], 0, ["i1"]),
    "another item where one stays": ("1", [FIRST, FIRST, REPLY, notice(BOB, 2, "news", "i2")], 0, ["i2"]),
    "another item where two stay": ("2", [FIRST, notice(BOB, 2, "news", "i2")], 0, ["i1", "i2"]),
    "an item of another node": ("10", [notice(BOB, 1, "olds", "i1")] * 2 + [REPLY], 0, []),
    "told again after it was retracted": ("10", [FIRST, retracted(2, "i1"), FIRST], 0, []),
    "no items stay": ("0", [FIRST], 2, None),
    "more than 1000 stay": ("1001", [FIRST], 2, None),
}


# Words that are no command, a line each; two spaces that follow one another, or one at the end, have an empty word behind them.
USAGES = """

serve --store s
serve --service pubsub.example --store s
serve --store s --service pubsub.example a.example i1 o1
serve --service a.example --store s A.EXAMPLE i1 o1
serve --service pubsub.example --store s ann@a.example i1 o1
serve --service pubsub.example --store s a.example/1 i1 o1
serve --service pubsub.example --store s a..example i1 o1
serve --service pubsub.example --store i1 a.example i1 o1
serve --service pubsub.example --store s a.example i1 i1
serve --service pubsub.example --store s a.example i1 
serve --service pubsub.example --store s a.example i1 o1 b.example i2
serve --service pubsub.example --store s a.example i1 o1 A.example i2 o2
serve --service pubsub.example --store s a.example i1 o1 b.example i1 o2
serve --service pubsub.example --store s a.example i1 o1 b.example i2 o1
serve --service pubsub.example --store s a.example i1 o1 b.example i2 i1
serve --service pubsub.example --store s a.example i1 o1 b.example o1 o2
serve --service pubsub.example --store s a.example i1 o1 b.example i2 s
rehearse 0
rehearse 0 4 1
rehearse 0 0
rehearse 0 100001
rehearse 18446744073709551616 4
rehearse 000000000000000000001 4
rehearse  4
rehearse +1 4
rehearse 1 4x
rehearsal 0 4
compact s s
compact s 
compact s
compact s t u
explain s bob@b.example pubsub.example
explain s bob@b.example pubsub.example w x
explain  bob@b.example pubsub.example w
explain s bob@b.example pubsub.example 
explain s @b.example pubsub.example w
explain s bob@b.example pubsub.example/1 w
readers s pubsub.example
readers  pubsub.example w
readers s pubsub.example 
readers s pubsub.example/1 news
readers s ann@a.example/1 w
feed s 0
feed s 0 s
feed  0 o
feed s 0 
feed s  o
feed s -1 o
feed s 18446744073709551616 o
feed s 000000000000000000001 o
follow a.example f i
follow a.example f f o
follow a.example f i f
follow a.example f i i
follow a.example  i o
follow ann@a.example f i o
follow a.example/1 f i o
mirror pubsub.example news bob@b.example 10
mirror pubsub.example news bob@b.example 0 i
mirror pubsub.example news bob@b.example 1001 i
mirror pubsub.example news bob@b.example 00001 i
mirror pubsub.example news bob@b.example 10 
mirror pubsub.example news bob@b@c 10 i
mirror pubsub.example  bob@b.example 10 i
mirror pubsub.example/1 news bob@b.example 10 i"""


def command(program, *told, folder=None):
    done = subprocess.run([program, *map(str, told)], capture_output=True, timeout=60, check=False, cwd=folder)
    return done.returncode, done.stdout, done.stderr


def reads_of(store, sink):
    """The commands that read a store and don't serve it."""
    return [
        ("compact", store, sink.parent / "new"),
        ("explain", store, "ann@a.example", "pubsub.example", "news"),
        ("readers", store, "pubsub.example", "news"),
        ("feed", store, "0", sink),
    ]


def expect(what, came, wanted):
    if came != wanted:
        raise Wrong(f"{what}: came {came!r}, wanted {wanted!r}")


def usage(program, folder):
    """Words that are no command, none at all, and too many streams. Nothing is made."""
    streams = "serve --service pubsub.example --store s" + "".join(f" h{number}.example i{number} o{number}" for number in range(17))
    for told in ([], *(line.split(" ") for line in [*USAGES.split("\n"), streams])):
        expect(told, command(program, *told, folder=folder), (2, USAGE, b""))
    expect("what is there", list(folder.iterdir()), [])
    with open("/dev/full", "wb") as full:
        done = subprocess.run([program], stdout=full, stderr=subprocess.PIPE, timeout=60, check=False)
    expect("a usage that can't be written", done.returncode, 2)


def spelled(program, folder):
    """Hosts in capitals, and numbers that begin with zeros, mean what they mean without."""

    def told(words):
        code, report, _ = command(program, *words.split(" "), folder=folder)
        expect(words, code, 0)
        made = folder / words.rpartition(" ")[2]
        return report, made.read_bytes() if made.name in ("o", "p") else b""

    (folder / "i").write_bytes(LINE)
    told("serve --service PubSub.Example --store s A.Example i o")
    expect("the reply", (folder / "o").read_bytes(), result("ann@a.example/1", 1) + b"\n")
    for _ in range(3):
        told("serve --service pubsub.example --store s a.example i p")
    explained = told("explain s bob@b.example/Res pubsub.example news")
    expect("an address in capitals", told("explain s Bob@B.Example/Res PubSub.Example news"), explained)
    expect("a node of an account", told("readers s ann@a.example urn:t"), (b"no node\n", b""))
    records = told("feed s 7 o")[1]
    if not records:
        raise Wrong("nothing is fed from the seventh entry on")
    expect("a number with zeros", told("feed s 00000000000000000007 o")[1], records)
    expect("the last number", told("feed s 18446744073709551615 o")[1], b"")
    told("feed s 0 f")
    expect("a follower's host in capitals", told("follow A.Example f i o"), told("follow a.example f i p"))
    for name in ("urn:t", "news"):
        (folder / "n").write_bytes(notice(f"{BOB}/1", 1, name, "i1") + b"\n" + notice(f"{BOB}/1", 2, name, "i2") + b"\n")
        for most in ("0001", "1000"):
            told(f"mirror ann@a.example {name} {BOB}/1 {most} n")
    expect("how many stay", told(f"mirror {SERVICE} news {BOB}/1 0001 n"), (shown("i2") + b"\n", b""))
    expect("how many stay", told(f"mirror {SERVICE} news {BOB}/1 1000 n"), (shown("i1") + b"\n" + shown("i2") + b"\n", b""))
    expect("a rehearsal", told("rehearse 00000000000000000007 01"), told("rehearse 7 1"))
    told("rehearse 18446744073709551615 4")
    # The longest rehearsal isn't waited for: it is under way, and no usage.
    with subprocess.Popen([program, "rehearse", "0", "100000"], stdout=subprocess.PIPE) as longest:
        time.sleep(1)
        expect("the longest rehearsal", longest.poll() or 0, 0)
        longest.kill()
    told("compact s s.new")


def mirrored(program, folder):
    """What a mirror reports of the lines of a source."""
    source = folder / "in"
    for case, (most, lines, status, names) in MIRRORED.items():
        source.write_bytes(b"".join(line + b"\n" for line in lines))
        report = USAGE if names is None else b"".join(shown(name) + b"\n" for name in names)
        expect(case, command(program, "mirror", SERVICE, "news", BOB, most, source), (status, report, b""))
    expect("a folder as its source", command(program, "mirror", SERVICE, "news", BOB, "10", folder)[:2], (3, b"stream fault\n"))


def missing(program, folder):
    """A store, a feed or a source that isn't there is an error, and nothing is made."""
    store, sink, there = folder / "store", folder / "out", folder / "empty"
    there.write_bytes(b"")
    why = b"No such file or directory"
    for told in reads_of(store, sink):
        refuses(told[0], command(program, *told), "store", store, why)
    refuses("follow", command(program, "follow", "a.example", store, there, sink), "source", store, why)
    refuses("mirror", command(program, "mirror", SERVICE, "news", BOB, "10", store), "source", store, why)
    left = sorted(path.name for path in folder.iterdir())
    expect("what is there", left, ["empty"])


def damaged(program, folder):
    """A damaged store is named with the byte. One of version 1 is read; compacting leaves it as it is, and what reads it alone upgrades it."""
    store, sink = folder / "store", folder / "out"
    booted = b"PUBSUBJ1\x01\0\0\0\x11\0\0\x0epubsub.example7"
    for told in reads_of(store, sink):
        store.write_bytes(booted[:13] + b"\x09" + booted[14:])
        expect(told[0], command(program, *told), (5, b"store damaged at 13\n", b""))
        store.write_bytes(booted)
        (folder / "new").unlink(missing_ok=True)
        code, _, _ = command(program, *told)
        left = booted if told[0] == "compact" else booted[:7] + b"2" + booted[8:]
        expect(told[0], (code, store.read_bytes()), (0, left))


def follows(program, folder, feed):
    """The records of a store lead a follower to the service's answers, and one that leaves a gap ends it at its offset."""
    there, answers = folder / "in", folder / "answers"
    there.write_bytes(LINE)
    expect("follow", command(program, "follow", "a.example", feed, there, answers), (0, b"", b""))
    if b'"conflict"' not in answers.read_bytes():
        raise Wrong(f"the follower's answer: {answers.read_bytes()!r}")
    at = feed.stat().st_size
    feed.write_bytes(feed.read_bytes() + bytes(7) + b"\x63" + b"\0\0\0\x01\x04")
    expect("a feed with a gap", command(program, "follow", "a.example", feed, there, answers), (11, b"feed bad at %d\n" % at, b""))


def reads_beside(program, folder):
    """A store that is served can't be read by another program; once it is free it can."""
    store, pipe, sink = folder / "store", folder / "pipe", folder / "out"
    os.mkfifo(pipe)
    with subprocess.Popen(words(program, store, pipe, folder / "served")) as first:
        try:
            with open(pipe, "wb", buffering=0) as source:
                source.write(LINE)
                reply_in(folder / "served")
                for told in reads_of(store, sink):
                    refuses(told[0], command(program, *told), "store", store, b"")
            if first.wait(60) != 0:
                raise Wrong(f"the first program ended with {first.returncode}")
        finally:
            first.kill()
    expect("feed", command(program, "feed", store, "0", sink), (0, b"", b""))
    follows(program, folder, sink)


def main():
    if len(sys.argv) != 2:
        sys.exit(__doc__.strip())
    program = str(pathlib.Path(sys.argv[1]).resolve())
    for part in (usage, spelled, mirrored, missing, damaged, reads_beside):
        with tempfile.TemporaryDirectory() as folder:
            try:
                part(program, pathlib.Path(folder))
            except Wrong as wrong:
                print(f"FAIL {part.__name__}: {wrong}")
                sys.exit(1)
        print(f"ok   {part.__name__}")


if __name__ == "__main__":
    main()
