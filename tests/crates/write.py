#!/usr/bin/env python3
"""Writes crates.txt from the short table beside this script.

    write.py            writes crates.txt
    write.py --check    says whether crates.txt is what would be written, whether the table names what each crate uses, and how many ways lead down

A line of the table names a crate, its flags, and the libraries that its own files use; `only` before the colon says that it may name more. No line
names what stands further below, which the toolchain finds by itself: it goes from each crate to all that its line names, and again from each of these,
by every way that leads there, so long lines cost it minutes before each proof. The crates stand by layer, which is one more than the highest layer of
what a crate uses, and by name.
"""

import os
import re
import sys

HERE = os.path.dirname(os.path.abspath(__file__))
ROOT = os.path.dirname(os.path.dirname(HERE))
CRATES = os.path.join(ROOT, "crates")
# The gate takes the sum of the texts below a crate once for each way that leads down from it, and that twice: some 1.4 seconds of one processor a thousand ways.
MOST_WAYS = 480_000
HEAD = "# Written by tests/crates/write.py from tests/crates/table.txt: change that.\n"
NAMED = [
    re.compile(r"Rattle\.(\w+)\."),
    re.compile(r"\buse (\w+)(?:::|\s+as\b)"),
    re.compile(r"\b(ps_\w+)::"),
]


def table():
    """Returns each crate with its flags and what it uses itself."""
    rows = {}
    with open(os.path.join(HERE, "table.txt"), encoding="utf-8") as file:
        for line in file:
            if not line.strip() or line.startswith("#"):
                continue
            head, uses = line.split(":")
            name, *flags = head.split()
            rows[name] = (flags, uses.split())
    return rows


def layers(rows):
    """Returns the layer of each crate and library; what isn't a crate of ours is of layer 0."""
    found = {}

    def layer(name):
        if name not in rows:
            return 0
        if name not in found:
            found[name] = 1 + max([layer(use) for use in rows[name][1]], default=0)
        return found[name]

    for name in rows:
        layer(name)
    return found


def ways(rows):
    """Returns how many ways lead down from each crate, the empty one too."""
    found = {}

    def count(name):
        if name not in found:
            found[name] = 1 + sum(count(use) for use in rows[name][1] if use in rows)
        return found[name]

    for name in rows:
        count(name)
    return found


def written(rows):
    """Returns the text of crates.txt."""
    layer = layers(rows)

    def place(name):
        return (name not in rows, layer.get(name, 0), name)

    lines = [HEAD]
    for name in sorted(rows, key=place):
        flags, uses = rows[name]
        uses = sorted(uses, key=place)
        words = [name] + [flag for flag in flags if flag != "only"]
        lines.append(" ".join(words) + ":" + "".join(" " + use for use in uses) + "\n")
    return "".join(lines)


def used(name, known):
    """Returns the libraries that the files of a crate name."""
    found = set()
    for folder, _, files in os.walk(os.path.join(CRATES, name)):
        for file in files:
            if file.endswith((".rt", ".antt")) and "/out" not in folder:
                with open(os.path.join(folder, file), encoding="utf-8") as text:
                    text = text.read()
                for pattern in NAMED:
                    found.update(pattern.findall(text))
    return (found & known) - {name}


def misfits(rows):
    """Yields what the table says otherwise than the files."""
    known = set(rows)
    for _, uses in rows.values():
        known.update(uses)
    for name, (flags, uses) in rows.items():
        found = used(name, known)
        for use in sorted(found ^ set(uses)) if "only" not in flags else ():
            yield f"{name}: {use} is {'used and not named' if use in found else 'named and not used'}"


def main():
    rows = table()
    text = written(rows)
    path = os.path.join(ROOT, "crates.txt")
    if "--check" not in sys.argv:
        with open(path, "w", encoding="utf-8") as file:
            file.write(text)
        return 0
    wrong = list(misfits(rows))
    with open(path, encoding="utf-8") as file:
        if file.read() != text:
            wrong.append("crates.txt isn't what the table gives")
    count = sum(ways(rows).values())
    if count > MOST_WAYS:
        wrong.append(f"{count} ways lead down, more than {MOST_WAYS}: name fewer libraries where a crate between passes on what they have")
    for line in wrong:
        print(line)
    print(f"{len(rows)} crates, {count} ways down, {len(wrong)} misfits")
    return 1 if wrong else 0


if __name__ == "__main__":
    sys.exit(main())
