#!/usr/bin/env python3
"""Runs rehearsals with the program, and compares what they report and their statuses.

Usage: run.py PROGRAM
"""
import subprocess
import sys

USAGE = (
    "usage: pubsubd serve --service HOST --store PATH HOST IN OUT [HOST IN OUT].. | rehearse SEED COUNT | compact PATH NEW"
    " | explain PATH ADDRESS SERVICE NODE | readers PATH SERVICE NODE | feed PATH FROM OUT | follow HOST FEED IN OUT"
    " | mirror SERVICE NODE ADDRESS MAX IN\n"
)

# A node is made by the first stanza; the other three ask of nodes that aren't there.
CASES = [
    (("0", "4"), "stanzas 4\ncommits 1\nresults 1\nerrors 3\nnotices 0\n", 0),
    (("0", "0"), USAGE, 2),
    (("0", "100001"), USAGE, 2),
    (("18446744073709551616", "1"), USAGE, 2),
    (("0",), USAGE, 2),
]


# Over an output that takes nothing: wrong words stay wrong words, and a report that can't be written is a fault of a stream.
UNTOLD = [(("0", "4"), 3), (("0", "0"), 2)]


def untold(program, words):
    """Its status where nothing of its report can be written."""
    with open("/dev/full", "wb") as full:
        return subprocess.run([program, "rehearse", *words], stdout=full, stderr=subprocess.DEVNULL, timeout=110, check=False).returncode


def rehearse(program, words):
    """What it reports, and its status."""
    told = subprocess.run([program, "rehearse", *words], capture_output=True, text=True, timeout=110, check=False)
    return told.stdout, told.returncode


def numbers(report):
    return {name: int(number) for name, number in (line.split() for line in report.splitlines())}


def main(program):
    wrong = 0
    for words, report, status in CASES:
        told = rehearse(program, words)
        if told != (report, status):
            wrong += 1
            print(f"rehearse {' '.join(words)}: {told}")
    for words, status in UNTOLD:
        told = untold(program, words)
        if told != status:
            wrong += 1
            print(f"rehearse {' '.join(words)}, untold: {told}")
    one, other = rehearse(program, ("7", "20000")), rehearse(program, ("7", "20000"))
    told = numbers(one[0])
    if one != other or one[1] != 0 or told["stanzas"] != 20000 or told["results"] + told["errors"] != 20000 or not told["notices"]:
        wrong += 1
        print(f"rehearse 7 20000: {one}, {other}")
    print(f"rehearsals: {len(CASES) + len(UNTOLD) + 1 - wrong} passed, {wrong} failed")
    return 1 if wrong else 0


if __name__ == "__main__":
    sys.exit(main(sys.argv[1]))
