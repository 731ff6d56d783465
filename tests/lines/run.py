#!/usr/bin/env python3
"""Runs the program over the lines of the cases, and compares its replies with tests/lines/replies.txt and its notices with notices.txt, byte for byte.

Usage: run.py PROGRAM..

A notice has an id that begins with `n-`, which no reply here has. The replies come in the order of their lines, and of each address the notices in
theirs; whether a notice comes before a reply or behind it is free, and so is the order of two addresses.

Each program is run in a new folder, over an empty store, and once more over the store that the first run left, where it must end as well. A
program that isn't there is named and passed over, if another one is there: the gate builds a second one where it can.
"""
import json
import pathlib
import subprocess
import sys
import tempfile

HERE = pathlib.Path(__file__).resolve().parent
LINES = HERE.parent.parent / "crates" / "pubsubd" / "data" / "in.txt"
REPLIES, NOTICES = HERE / "replies.txt", HERE / "notices.txt"
WORDS = ["serve", "--service", "pubsub.example", "--store", "store", "a.example", "in.txt", "out.txt"]


def first_difference(got, wanted):
    """The number of the first line in which the two differ, counted from 1."""
    pairs = zip(got.split(b"\n"), wanted.split(b"\n"))
    return next((at for at, (one, other) in enumerate(pairs, 1) if one != other), None)


def parted(text):
    """The lines of replies, and of each bare address the lines of its notices, each with what ends it."""
    replies, notices = [], {}
    for line in text.splitlines(keepends=True):
        attributes = json.loads(line)["a"]
        if attributes.get("id", "").startswith("n-"):
            notices.setdefault(attributes["to"].partition("/")[0], []).append(line)
        else:
            replies.append(line)
    return b"".join(replies), {who: b"".join(lines) for who, lines in notices.items()}


def difference(text):
    """What differs of a run's output, or None."""
    (replies, notices), wanted, told = parted(text), REPLIES.read_bytes(), parted(NOTICES.read_bytes())[1]
    if replies != wanted:
        return f"reply {first_difference(replies, wanted)} differs, of {wanted.count(bytes([10]))}"
    for who in sorted({*notices, *told}):
        got, wanted = notices.get(who, b""), told.get(who, b"")
        if got != wanted:
            return f"notice {first_difference(got, wanted)} to {who} differs, of {wanted.count(bytes([10]))}"
    return None


def ran(program):
    """What is wrong with the program's run, or None."""
    with tempfile.TemporaryDirectory(prefix="pubsubd-lines-") as room:
        folder = pathlib.Path(room)
        (folder / "in.txt").write_bytes(LINES.read_bytes())
        for again in (False, True):
            run = subprocess.run([program, *WORDS], cwd=folder, stdin=subprocess.DEVNULL, capture_output=True, timeout=600)
            if run.returncode != 0 or run.stdout:
                return f"ended with {run.returncode}, and reported {run.stdout!r}"
            why = None if again else difference((folder / "out.txt").read_bytes())
            if why is not None:
                return why
    return None


def main():
    there = [pathlib.Path(word).resolve() for word in sys.argv[1:] if pathlib.Path(word).is_file()]
    if not there:
        print("no program is there")
        return 1
    status = 0
    for program in there:
        why = ran(program)
        print(f"{program.name}: {why or 'each reply and each notice is as in the cases'}")
        status |= why is not None
    return status


if __name__ == "__main__":
    sys.exit(main())
