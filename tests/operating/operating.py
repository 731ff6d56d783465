#!/usr/bin/env python3
"""What an operator meets: openings that fail are named on the standard error, and a store is held by one program at a time.

Usage: operating.py PROGRAM
"""
import os
import pathlib
import subprocess
import sys
import tempfile
import time

LINE = (
    b'{"a":{"from":"ann@a.example/1","id":"1","to":"pubsub.example","type":"set"},"c":[{"c":[{"a":{"node":"news"},"n":"create"}],'
    b'"n":"pubsub","ns":"http://jabber.org/protocol/pubsub"}],"n":"iq"}\n'
)
RESULT = b'{"a":{"from":"pubsub.example","id":"1","to":"ann@a.example/1","type":"result"},"n":"iq"}\n'


class Wrong(Exception):
    """Something else came than is wanted."""


def words(program, store, source, sink):
    return [program, "serve", "--service", "pubsub.example", "--store", str(store), "a.example", str(source), str(sink)]


def run(*told):
    done = subprocess.run(words(*told), capture_output=True, timeout=60, check=False)
    return done.returncode, done.stdout, done.stderr


def refuses(what, done, kind, name, why):
    """Raises `Wrong` unless the run ended with `open fault`, and the standard error has the object and the system's words."""
    wanted = (9, b"open fault\n", f"pubsubd: {kind} {name}: ".encode())
    if done[:2] != wanted[:2] or not done[2].startswith(wanted[2]) or why not in done[2]:
        raise Wrong(f"{what}: came {done!r}, wanted {wanted!r} and {why!r}")


def openings(program, folder):
    """A source, a sink and a store that can't be opened."""
    there, store, missing = folder / "in", folder / "store", folder / "missing" / "it"
    there.write_bytes(LINE)
    why = b"No such file or directory"
    refuses("no source", run(program, store, missing, folder / "out"), "source", missing, why)
    refuses("no sink", run(program, store, there, missing), "sink", missing, why)
    refuses("no store", run(program, missing, there, folder / "out"), "store", missing, why)


def reply_in(sink):
    """Waits for the reply to the line."""
    until = time.monotonic() + 60
    while time.monotonic() < until:
        if sink.exists() and sink.read_bytes() == RESULT:
            return
        time.sleep(0.01)
    raise Wrong(f"the first program's reply didn't come: {sink.read_bytes()!r}")


def held(program, folder):
    """A second program over one store is refused while the first one runs, and serves once that has ended."""
    store, pipe, there = folder / "store", folder / "pipe", folder / "empty"
    os.mkfifo(pipe)
    there.write_bytes(b"")
    with subprocess.Popen(words(program, store, pipe, folder / "out")) as first:
        try:
            with open(pipe, "wb", buffering=0) as source:
                source.write(LINE)
                reply_in(folder / "out")
                second = run(program, store, there, folder / "other")
                refuses("a store that is held", second, "store", store, b"")
            if first.wait(60) != 0:
                raise Wrong(f"the first program ended with {first.returncode}")
        finally:
            first.kill()
    third = run(program, store, there, folder / "other")
    if third != (0, b"", b""):
        raise Wrong(f"the store that is free again: {third!r}")


def main():
    if len(sys.argv) != 2:
        sys.exit(__doc__.strip())
    program = str(pathlib.Path(sys.argv[1]).resolve())
    for part in (openings, held):
        with tempfile.TemporaryDirectory() as folder:
            try:
                part(program, pathlib.Path(folder))
            except Wrong as wrong:
                print(f"FAIL {part.__name__}: {wrong}")
                sys.exit(1)
        print(f"ok   {part.__name__}")


if __name__ == "__main__":
    main()
