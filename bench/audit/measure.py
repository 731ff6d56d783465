#!/usr/bin/env python3
"""measure.py PROGRAM FOLDER: what an audit of a store costs, beside what opening it costs.

Half of ENTRIES (1000000), and then all of them, are publishes to ITEMS items (10000), ten a node, so most of them put a new item in the place of an older one.
Before them READERS addresses (1000) are set on one more node, which is the one that is audited: as members of a whitelist, so nobody is told of anything.
The store is written here, as bytes: frames of 1000 entries. The opening is one run of serve without a line. Seconds are those of the processor; behind them
stands how many times the opening's they are, and how many times those of half as many entries, which is 2 where the cost is linear.
"""
import itertools
import os
import pathlib
import subprocess
import sys

sys.path.insert(0, str(pathlib.Path(__file__).resolve().parents[2] / "tests" / "lines"))
import stanzas

program, folder = sys.argv[1], pathlib.Path(sys.argv[2])
entries = int(os.environ.get("ENTRIES", "1000000"))
items = int(os.environ.get("ITEMS", "10000"))
readers = int(os.environ.get("READERS", "1000"))
PER_NODE, PER_FRAME = 10, 1000
WHO = "ann@a.example/1"


def measured(words):
    """Runs the program; returns seconds of the processor, peak megabytes, and how many lines it reports."""
    with open(folder / "report", "wb") as report:
        started = subprocess.Popen([program, *map(str, words)], stdout=report)
        _, status, used = os.wait4(started.pid, 0)
    if status:
        sys.exit(f"{words[0]} ended with status {os.waitstatus_to_exitcode(status)}")
    return used.ru_utime + used.ru_stime, used.ru_maxrss / 1024, (folder / "report").read_bytes().count(b"\n")


def short(text):
    return len(text).to_bytes(2, "big") + text


def change(number, line):
    """The entry of a stanza that a client of a.example sent, without its moment."""
    return b"\x01" + short(b"a.example") + number.to_bytes(8, "big") + len(line).to_bytes(4, "big") + line


def stanzas_of(count):
    """The nodes, the one that is audited and its members, and so many publishes."""
    for number in range(items // PER_NODE):
        yield stanzas.create(WHO, number, f"node-{number}")
    yield stanzas.asked(WHO, "list", "set", "create{node=list} configure(@node_config{access_model=whitelist})")
    for number in range(readers):
        row = f"affiliations{{node=list}}(affiliation{{affiliation=member jid=reader-{number}@b.example}})"
        yield stanzas.asked(WHO, number, "set", row, stanzas.OWNER)
    yield from map(publish, range(count))


def write_store(count):
    boot = b"\0" + short(b"pubsub.example")
    written = itertools.chain([boot], (change(number, line) for number, line in enumerate(stanzas_of(count), 1)))
    with open(folder / "store", "wb") as store:
        store.write(b"PUBSUBJ2")
        while frame := b"".join(itertools.islice(written, PER_FRAME)):
            store.write(b"\x01" + len(frame).to_bytes(4, "big") + frame)
        store.write(b"\0")


def publish(number):
    place = number % items
    return stanzas.publish(WHO, number, f"node-{place // PER_NODE}", f"i{place % PER_NODE}", f"text {number}")


def audits():
    """What each of the three costs now; the opening last, since it adds entries."""
    store = folder / "store"
    (folder / "in").write_bytes(b"")
    return [
        ("explain", measured(["explain", store, "reader-7@b.example", "pubsub.example", "list"])),
        ("readers", measured(["readers", store, "pubsub.example", "list"])),
        ("opening", measured(["serve", "--service", "pubsub.example", "--store", store, "a.example", folder / "in", folder / "out"])),
    ]


def main():
    write_store(entries // 2)
    half = audits()
    write_store(entries)
    print(f"{entries} publishes, {os.path.getsize(folder / 'store') / 2**20:.1f} MB of store")
    whole = audits()
    opening = whole[-1][1][0]
    for (name, (before, _, _)), (_, (seconds, peak, lines)) in zip(half, whole):
        print(f"{name}: {seconds:.2f} s, {peak:.0f} MB, {lines} lines; {seconds / opening:.2f} of the opening, {seconds / before:.2f} of half")


if __name__ == "__main__":
    main()
