"""What a line costs, by its kind: instructions, allocations and bytes allocated.

Usage: cost.py PROGRAM FOLDER. It runs the program under callgrind, which counts instructions and not time, and under memcheck, which counts
allocations, over the lines that make ready what a kind needs, and once more with LINES (1000) lines of the kind behind them. A row is the
difference of the two, a line. Where VALUES names the program of rust/, which reads the same lines into serde_json's Value and prints them, its instructions stand behind, with the ratio.
"""
import os
import pathlib
import re
import subprocess
import sys

import corpus

READER = "reader@a.example"
OTHER = "other@a.example"


def create(k):
    return corpus.line(corpus.OWNER, k, "set", "create{node=made-%d}" % k)


def item(k, ids, size):
    """To the first node, by its owner; the item has so many bytes of text."""
    return corpus.publishing_to(corpus.OWNER, k, "node-0", "item-%d" % (k % ids), "x" * size)


def retrieve(k, one):
    return corpus.line(READER, k, "get", "items{node=node-0}" + ("(item{id=item-1})" if one else ""))


def denied(k):
    """The reader doesn't own the node."""
    return corpus.owning(READER, k, "delete{node=node-0}")


def malformed(k):
    return '{"a":{"from":"%s/1","id":"%d"},"n":"iq"\n' % (READER, k)


def kept_items(most):
    """The first node, which keeps so many items."""
    return [corpus.create(0), corpus.owning(corpus.OWNER, 1, "configure{node=node-0}(@node_config{max_items=%d})" % most)]


def heard(count):
    """So many are subscribed to the first node."""
    return [corpus.subscribing("node-0", 1, "sub", range(count))]


def kinds(lines):
    ten = kept_items(10) + [item(k, 10, 200) for k in range(10)]
    hundred = kept_items(100) + [item(k, 100, 200) for k in range(100)]
    return [
        ("create", [], create, lines),
        ("publish, 200 bytes", ten, lambda k: item(k, 10, 200), lines),
        ("publish, 16 KB", ten, lambda k: item(k, 10, 16384), lines // 10),
        ("publish to 50", ten + heard(50), lambda k: item(k, 10, 200), lines // 10),
        ("retrieve one item", ten, lambda k: retrieve(k, True), lines),
        ("retrieve 100 items", hundred, lambda k: retrieve(k, False), lines // 10),
        ("subscribe", ten, lambda k: corpus.subscribe(k, 1), lines),
        ("denied", ten, denied, lines),
        ("malformed", ten, malformed, lines),
    ]


class Run:
    """A run of the program over some lines: what it took, and the last reply."""

    def __init__(self, program, folder, lines):
        source, sink, store = (folder / name for name in ("in", "out", "store"))
        source.write_text("".join(lines))
        words = [program, "serve", "--service", "pubsub.example", "--store", store, "a.example", source, sink]
        told = []
        for tool in (["--tool=callgrind", f"--callgrind-out-file={folder / 'callgrind'}"], ["--tool=memcheck", "--undef-value-errors=no"]):
            sink.write_bytes(b"")
            store.unlink(missing_ok=True)
            told.append(subprocess.run(["valgrind", *tool, *words], check=True, capture_output=True, text=True).stderr)
        number = lambda text: int(text.replace(",", ""))
        self.instructions = number(re.search(r"Collected : (\d+)", told[0])[1])
        heap = re.search(r"total heap usage: ([\d,]+) allocs, [\d,]+ frees, ([\d,]+) bytes", told[1])
        self.allocations, self.bytes = number(heap[1]), number(heap[2])
        replies = sink.read_text().splitlines()
        self.last = replies[-1] if replies else ""


def values(folder, lines):
    """The instructions of Rust's serde_json over the same lines, or None where there is no such program."""
    program = os.environ.get("VALUES")
    if not program:
        return None
    (folder / "in").write_text("".join(lines))
    words = ["valgrind", "--tool=callgrind", f"--callgrind-out-file={folder / 'callgrind'}", program, folder / "in", folder / "values"]
    told = subprocess.run(words, check=True, capture_output=True, text=True).stderr
    return int(re.search(r"Collected : (\d+)", told)[1])


def main():
    program, folder = sys.argv[1], pathlib.Path(sys.argv[2])
    for name, before, make, count in kinds(int(os.environ.get("LINES", "1000"))):
        first = Run(program, folder, before)
        whole = Run(program, folder, before + [make(k) for k in range(count)])
        row = [(getattr(whole, what) - getattr(first, what)) / count for what in ("instructions", "allocations", "bytes")]
        made = [make(k) for k in range(count)]
        plain = values(folder, made)
        beside = "" if plain is None else " %6.0f of serde_json's Value (%.1f)" % ((plain - values(folder, [])) / count, row[0] * count / (plain - values(folder, [])))
        print("%-20s %9.0f instructions %6.1f allocations %8.0f bytes%s   %s" % (name, *row, beside, whole.last[:120] if os.environ.get("SHOW") else ""), flush=True)


main()
