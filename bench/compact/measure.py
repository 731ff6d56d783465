#!/usr/bin/env python3
"""measure.py PROGRAM FOLDER: what compacting a store costs, and what opening it costs before and afterwards.

ENTRIES publishes (1000000) go to ITEMS items (10000), ten a node, so most of them put a new item in the place of an
older one. Beside the compacted store stands one that as many entries made as it has rows (a store of ITEMS publishes
and its nodes). Each opening is one run that serves no line. Seconds are those of the processor.
"""
import os
import pathlib
import subprocess
import sys

sys.path.insert(0, str(pathlib.Path(__file__).resolve().parents[2] / "tests" / "lines"))
import stanzas

program, folder = sys.argv[1], pathlib.Path(sys.argv[2])
entries = int(os.environ.get("ENTRIES", "1000000"))
items = int(os.environ.get("ITEMS", "10000"))
PER_NODE = 10
WHO = "ann@a.example/1"


def measured(words):
    """Runs the program; returns seconds of the processor and peak megabytes."""
    started = subprocess.Popen([program, *map(str, words)])
    _, status, used = os.wait4(started.pid, 0)
    if status:
        sys.exit(f"the program ended with status {os.waitstatus_to_exitcode(status)}")
    return used.ru_utime + used.ru_stime, used.ru_maxrss / 1024


def serve(store, lines):
    with open(folder / "in", "wb") as it:
        it.writelines(line + b"\n" for line in lines)
    words = ["serve", "--service", "pubsub.example", "--store", folder / store, "a.example", folder / "in", folder / "out"]
    return measured(words)


def nodes():
    return (stanzas.create(WHO, number, f"node-{number}") for number in range(items // PER_NODE))


def publish(number):
    place = number % items
    return stanzas.publish(WHO, number, f"node-{place // PER_NODE}", f"i{place % PER_NODE}", f"text {number}")


def megabytes(store):
    return os.path.getsize(folder / store) / 2**20


def main():
    serve("store", nodes())
    serve("store", (publish(number) for number in range(entries)))
    serve("few", nodes())
    serve("few", (publish(number) for number in range(items)))
    before, peak = serve("store", [])
    print(f"opening {entries} entries: {before:.2f} s, {peak:.0f} MB, {megabytes('store'):.1f} MB of store")
    seconds, peak = measured(["compact", folder / "store", folder / "new"])
    print(f"compacting them: {seconds:.2f} s, {peak:.0f} MB, {megabytes('new'):.1f} MB of new store")
    after, peak = serve("new", [])
    few, _ = serve("few", [])
    print(f"opening what it was compacted to: {after:.2f} s, {peak:.0f} MB; {after / before:.3f} of before,")
    print(f"{after / few:.2f} of opening as many entries as it has rows ({few:.2f} s)")


if __name__ == "__main__":
    main()
