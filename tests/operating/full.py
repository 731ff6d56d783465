#!/usr/bin/env python3
"""A store that is as long as a store may be: a run whose Boot, Gone or Handed would make it longer than 2^30 bytes ends with status 6, and one that just fits is served. A line
whose entry would make it longer than 2^29 is told so, and what makes none is answered.

Usage: full.py PROGRAM

It writes stores of a gigabyte, of publishes to one node that keeps one item, and takes some gigabytes of memory; it is not in the gate.
"""
import pathlib
import subprocess
import sys
import tempfile
import time

sys.path.insert(0, str(pathlib.Path(__file__).resolve().parent.parent / "lines"))
from make import received, sent
from stanzas import is_notice

SERVICE, HOST = b"pubsub.example", b"a.example"
# What a store has at most, and what it has at most by the entries of lines.
MOST, CHANGES = 2**30, 2**29
BOOT = b"\0" + len(SERVICE).to_bytes(2, "big") + SERVICE
GONE = b"\3" + len(HOST).to_bytes(2, "big") + HOST
ANN = b"ann@a.example"
HANDED = b"\2" + len(ANN).to_bytes(2, "big") + ANN
# What a frame has beside its entries: its gate and their length.
FRAME = 5


class Wrong(Exception):
    """Something else came than is wanted."""


def change(number, line):
    return b"\1" + len(HOST).to_bytes(2, "big") + HOST + number.to_bytes(8, "big") + len(line).to_bytes(4, "big") + line


def frame(body):
    return b"\1" + len(body).to_bytes(4, "big") + body


def published(number, letters):
    line, _ = sent(number, 'ann set P: publish{node=big}(item{id=i}(entry:urn:t("%s")))' % ("x" * letters))
    return frame(change(number, line))


def write(path, length, is_heard):
    """A store of this length: a Boot, a node, and publishes to it. If it is heard, its owner subscribed before the last ones."""
    node, _ = sent(1, "ann set P: create{node=big} configure(@node_config{max_items=1 max_payload_size=131072})")
    heard, _ = sent(1, "ann set P: subscribe{jid=ann@a.example node=big}")
    more = len(frame(change(1, heard))) if is_heard else 0
    with open(path, "wb") as store:
        store.write(b"PUBSUBJ2" + frame(BOOT) + frame(change(1, node)))
        number, usual = 2, 131_000
        # Each print has letters beside its own frame; the last one is as long as is left.
        own = len(published(2**32, 0))
        while length - 1 - store.tell() > 2 * (usual + own) + more:
            store.write(published(number, usual))
            number += 1
        if is_heard:
            store.write(frame(change(number, heard)))
            number += 1
        while (left := length - 1 - store.tell()) > 0:
            letters = left if left <= usual else left // 2
            letters -= len(published(number, letters)) - letters if left <= usual + own else 0
            store.write(published(number, letters))
            number += 1
        store.write(b"\0")
    if path.stat().st_size != length:
        raise Wrong(f"the store has {path.stat().st_size} bytes and not {length}")


def serves(program, folder, length, wanted, grows, lines=(), is_heard=False):
    """A run over a store of this length, which ends so and makes it so much longer, and what its sink then has."""
    began, store = time.monotonic(), folder / "store"
    write(store, length, is_heard)
    (folder / "in").write_bytes(b"".join(line + b"\n" for line in lines))
    words = [program, "serve", "--service", SERVICE, "--store", store, HOST, folder / "in", folder / "out"]
    done = subprocess.run(words, capture_output=True, timeout=1200, check=False)
    if (done.returncode, done.stdout) != wanted:
        raise Wrong(f"{length} bytes: came {done!r}, wanted {wanted!r}")
    if store.stat().st_size != length + grows:
        raise Wrong(f"{length} bytes: the store has {store.stat().st_size} now, and not {grows} more")
    print(f"ok   a store of {length} bytes ends with status {done.returncode}, in {time.monotonic() - began:.0f} s", flush=True)
    return (folder / "out").read_bytes().splitlines() if (folder / "out").exists() else []


FULL, DONE = (6, b"store full\n"), (0, b"")
OF_BOOT, OF_GONE, OF_HANDED = FRAME + len(BOOT), FRAME + len(GONE), FRAME + len(HANDED)


def no_boot(program, folder):
    serves(program, folder, MOST - OF_BOOT + 1, FULL, 0)


def no_gone(program, folder):
    serves(program, folder, MOST - OF_BOOT - OF_GONE + 1, FULL, OF_BOOT)


def both(program, folder):
    serves(program, folder, MOST - OF_BOOT - OF_GONE, DONE, OF_BOOT + OF_GONE)


def no_handed(program, folder):
    """A Gone has room and a Handed has none: the first notice is written, and not recorded."""
    came = serves(program, folder, MOST - OF_BOOT - OF_HANDED + 1, FULL, OF_BOOT + OF_GONE, is_heard=True)
    if len(came) != 1 or not is_notice(came[0]):
        raise Wrong(f"no room for a Handed: {len(came)} lines came")


def no_change(program, folder):
    """An entry that would pass the limit of lines isn't made, and its line is told so; what makes none is answered."""
    create, head = sent(1, "ann set P: create{node=new}")
    asked, other = sent(2, "ann get P: items{node=new}")
    wanted = [received(1, head, "denied 24"), received(2, other, "denied 12")]
    came = serves(program, folder, CHANGES - 100, DONE, OF_BOOT + OF_GONE, [create, asked])
    if came != wanted:
        raise Wrong(f"no room for a change: came {came}, wanted {wanted}")


def main():
    if len(sys.argv) != 2:
        sys.exit(__doc__.strip())
    program = str(pathlib.Path(sys.argv[1]).resolve())
    for part in (no_change, no_boot, no_gone, both, no_handed):
        with tempfile.TemporaryDirectory() as folder:
            try:
                part(program, pathlib.Path(folder))
            except Wrong as wrong:
                print(f"FAIL {part.__name__}: {wrong}")
                sys.exit(1)


if __name__ == "__main__":
    main()
