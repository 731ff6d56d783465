#!/usr/bin/env python3
"""Refuses each growth of the program's memory in turn, and looks at what it answered and at what its store holds.

    memory.py PROGRAM [MOST [CASE..]]      MOST: so many numbers of each case at most, evenly dealt (2,000); CASE: of those in cases.py, or all

A case is a run over a store: the first one begins it, others go on where earlier runs ended. It is counted how often the run grows; then it is run once
for each number, and the growth of that number is refused by refuse.c, which is loaded before the C library. So no number costs a build. Each run ends well, with all
that the whole run says; or by status 7, that memory ran out; or as a fault of the object does whose growth was refused. What its sinks then hold is the front
of what they hold else. Its store opens afterwards, and holds a front of each host's changes, with each one that was answered.
"""
import collections
import os
import pathlib
import subprocess
import sys
import tempfile
import time
from concurrent.futures import ThreadPoolExecutor

from cases import CASES, HERE, SECONDS, Whole, Wrong, compiled

MEMORY = 7
# What a fault of a stream, of the store and of an opening has.
FAULTS = (3, 4, 9)


class Case(Whole):
    """A case with the number of its growths, each of which can be refused."""

    def __init__(self, name, program, libraries):
        with tempfile.TemporaryDirectory(prefix="pubsubd-memory-") as folder:
            super().__init__(name, program, folder, libraries)
        with tempfile.TemporaryDirectory(prefix="pubsubd-memory-") as folder:
            room = self.room(folder)
            count = room.folder / "count"
            self.must_be_whole(room.run(self.lines, self.environment(room, REFUSE="0", REFUSE_COUNT=str(count)))[0])
            self.growths = int(count.read_text()) if count.exists() else 0
        if not self.growths:
            raise Wrong(f"{name}: no growth was counted: an unproved build has a malloc of its own, so this wants a proved one")

    def tried(self, number):
        """Runs it with that growth refused, and returns its status."""
        with tempfile.TemporaryDirectory(prefix="pubsubd-memory-") as folder:
            room = self.room(folder)
            status, came = room.run(self.lines, self.environment(room, REFUSE=str(number)))
            if status not in (0, MEMORY, *FAULTS):
                raise Wrong(f"ended with {status}")
            self.must_be_front(status, came)
            self.must_be_kept(status, came, room)
            self.must_serve_on(status, room)
            return status


def refused(case, most):
    """What each number came to, over so many at most: a status, or what was wrong."""

    def tried(number):
        try:
            return number, case.tried(number)
        except Wrong as wrong:
            return number, str(wrong)
        except subprocess.TimeoutExpired:
            return number, f"no end within {SECONDS} s"

    with ThreadPoolExecutor(os.cpu_count()) as pool:
        return list(pool.map(tried, range(1, case.growths + 1, -(-case.growths // most))))


def told(case, came):
    """How often each status came; and what was wrong, with its numbers. Returns how many were."""
    counts = collections.Counter(what for _, what in came if isinstance(what, int))
    wrong = collections.defaultdict(list)
    for number, what in came:
        if not isinstance(what, int):
            wrong[what].append(number)
    ends = ", ".join(f"{count} with {status}" for status, count in sorted(counts.items()))
    print(f"{case.name}: {case.growths} growths, {len(came)} refused one by one: {ends}, {sum(map(len, wrong.values()))} wrong")
    for what, numbers in wrong.items():
        shown = ", ".join(map(str, numbers[:30])) + (" .." if len(numbers) > 30 else "")
        print(f"  {what}: {len(numbers)} growths: {shown}", flush=True)
    return sum(map(len, wrong.values()))


def main(words):
    program, most, failed = str(pathlib.Path(words[0]).resolve()), int(words[1]) if len(words) > 1 else 2000, 0
    with tempfile.TemporaryDirectory(prefix="pubsubd-refuse-") as folder:
        libraries = [compiled(it, folder) for it in (HERE / "refuse.c", HERE.parent / "faults" / "fail.c")]
        for name in words[2:] or CASES:
            began = time.monotonic()
            try:
                case = Case(name, program, libraries)
            except Wrong as wrong:
                sys.exit(str(wrong))
            failed += told(case, refused(case, most))
            print(f"  {time.monotonic() - began:.0f} s", flush=True)
    return 1 if failed else 0


if __name__ == "__main__":
    if len(sys.argv) < 2:
        sys.exit(__doc__.strip())
    sys.exit(main(sys.argv[1:]))
