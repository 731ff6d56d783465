#!/usr/bin/env python3
"""The program in twenty sizes of address space under load: where memory is short nothing is lost that was answered.

Usage: space.py PROGRAM (outside the gate: it takes minutes; a proved program, since an unproved build reserves terabytes)
"""
import os
import pathlib
import re
import resource
import subprocess
import sys
import tempfile

sys.path.insert(0, str(pathlib.Path(__file__).resolve().parent.parent / "lines"))
from notation import Element, form
from stanzas import asked, publish, retrieve


class Wrong(Exception):
    """Something else came than is wanted."""


def words(program, store, source, sink):
    return [program, "serve", "--service", "pubsub.example", "--store", str(store), "a.example", str(source), str(sink)]


# ---- memory

ANN = "ann@a.example/1"
# The sizes of the address space that are tried, how far they lie apart, and the load.
SIZES, STEP, PUBLISHES, PAYLOAD = 20, 2 << 20, 400, 16_000
MOST = 1 << 36
# Seconds in which a run without lines ends, also where a thread is refused, and one under load.
SHORT, LONG = 30, 300
MEMORY = 7
PUBLISHED = re.compile(rb'"type":"result"}.*"a":{"id":"(i\d+)"}')


def loaded():
    """A node that keeps all items, and many that are published."""
    configure = Element("configure", None, {}, [form("node_config", "submit", [("max_items", None, ["max"])])])
    yield asked(ANN, "c", "set", [Element("create", None, {"node": "news"}, []), configure])
    for number in range(PUBLISHES):
        yield publish(ANN, number, "news", f"i{number}", "x" * PAYLOAD)


def within(size, seconds, *told):
    """A run in an address space of so many bytes: its status and report, or None if it comes to no end in so many seconds."""
    limit = None if size is None else lambda: resource.setrlimit(resource.RLIMIT_AS, (size, size))
    try:
        done = subprocess.run(words(*told), capture_output=True, timeout=seconds, check=False, preexec_fn=limit)
    except subprocess.TimeoutExpired:
        return None
    return done.returncode, done.stdout


def least(program, folder):
    """The least size, to a step, in which a run without lines ends well: doubled until one does, and halved into what lies between.

    Also those sizes of the search in which it came to no end.
    """
    empty, endless = folder / "empty", []
    empty.write_bytes(b"")

    def serves(steps):
        ended = within(steps * STEP, SHORT, program, folder / "none", empty, folder / "out")
        if ended is None:
            endless.append(steps * STEP)
        return ended == (0, b"")

    low, high = 0, 1
    while not serves(high):
        low, high = high, 2 * high
        if high * STEP > MOST:
            raise Wrong(f"not even {MOST} bytes serve a run without lines: an unproved build reserves far more, so this wants a proved one")
    while high - low > 1:
        middle = (low + high) // 2
        low, high = (low, middle) if serves(middle) else (middle, high)
    return high * STEP, endless


def short_of_memory(program, folder):
    """Under load, at twenty sizes: the run ends well, or by the status of memory, and what was answered is there."""
    there, question = folder / "in", folder / "question"
    there.write_bytes(b"".join(line + b"\n" for line in loaded()))
    question.write_bytes(retrieve(ANN, "q", "news") + b"\n")
    (begin, endless), ended = least(program, folder), []
    for size in (begin + steps * STEP for steps in range(SIZES)):
        store, sink = folder / f"store-{size}", folder / f"out-{size}"
        came = within(size, LONG, program, store, there, sink)
        if came not in ((0, b""), (MEMORY, b"out of memory\n")):
            raise Wrong(f"in {size} bytes: came {came}")
        status, _ = came
        replies = sink.read_bytes().split(b"\n")[:-1] if sink.exists() else []
        answered = [found[1] for found in map(PUBLISHED.search, replies) if found]
        if status == 0 and len(answered) != PUBLISHES:
            raise Wrong(f"in {size} bytes: {len(answered)} answers")
        again = within(None, LONG, program, store, question, folder / "again")
        kept = set(re.findall(rb'"a":{"id":"(i\d+)"}', (folder / "again").read_bytes()))
        if again != (0, b"") or not kept.issuperset(answered):
            raise Wrong(f"in {size} bytes: {len(set(answered) - kept)} answered items are lost, {again}")
        ended.append((status, len(answered)))
        print(f"{size >> 20} MB: status {status}, {len(answered)} of {PUBLISHES} publishes answered, {len(kept)} kept", flush=True)
        store.unlink()
    if not any(status == MEMORY for status, _ in ended):
        raise Wrong(f"no size was too small: {ended}")
    if endless:
        raise Wrong(f"a run without lines came to no end in {', '.join(f'{size >> 20} MB' for size in sorted(endless))}")


def main():
    if len(sys.argv) != 2:
        sys.exit(__doc__.strip())
    program = str(pathlib.Path(sys.argv[1]).resolve())
    for part in (short_of_memory,):
        with tempfile.TemporaryDirectory() as folder:
            try:
                part(program, pathlib.Path(folder))
            except Wrong as wrong:
                print(f"FAIL {part.__name__}: {wrong}")
                sys.exit(1)
        print(f"ok   {part.__name__}")


if __name__ == "__main__":
    main()
