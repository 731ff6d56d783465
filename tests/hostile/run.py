#!/usr/bin/env python3
"""Gives the program hostile and malformed lines, and each denial that a tree alone can have: what it answers must be, byte for byte, what lines.py says.

Usage: run.py PROGRAM
"""
import pathlib
import subprocess
import sys
import tempfile

import lines

NEWLINE = b"\n"


def answers(program, room, given):
    """What the program writes for the lines."""
    (room / "in").write_bytes(given)
    words = [program, "serve", "--service", lines.SERVICE, "--store", room / "store", lines.HOST, room / "in", room / "out"]
    subprocess.run(words, check=True, timeout=600)
    return (room / "out").read_bytes()


def main():
    given, wanted = lines.made()
    with tempfile.TemporaryDirectory(prefix="hostile-") as folder:
        got = answers(sys.argv[1], pathlib.Path(folder), given)
    if got != wanted:
        pairs = zip(got.split(NEWLINE), wanted.split(NEWLINE))
        first = next(((one, other) for one, other in pairs if one != other), (b"", b""))
        sys.exit(f"the replies differ, first {first[0][:300]!r} in place of {first[1][:300]!r}")
    print(f"{given.count(NEWLINE) + 1} hostile lines, {wanted.count(NEWLINE)} replies: all as they must be")


main()
