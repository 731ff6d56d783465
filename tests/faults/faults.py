#!/usr/bin/env python3
"""Fails each call of the program on its store, and on each source and sink, one run a call; and looks at what it answered, and at what its store holds and hands out then.

    faults.py PROGRAM [CASE..]      CASE: of those in tests/memory/cases.py, or those of TRIED

It is counted how often a case's run seeks, reads, writes and syncs on the file; then it is run once for each number, of many for 80 among them, and that call is failed by
fail.c, which is loaded before the C library. A fault of the store ends a run with status 4, one of a source or a sink with 3; a call that didn't come this time, with 0. What
the sinks then hold is a front of what they hold else. After a fault of a stream the other streams' sinks miss nothing, and the store has the end of each host. It opens
afterwards, holds a front of each host's changes with each one that was answered, and the notices of both runs are those of the whole run, where at most one an address comes again.
"""
import collections
import os
import pathlib
import subprocess
import sys
import tempfile
from concurrent.futures import ThreadPoolExecutor

HERE = pathlib.Path(__file__).resolve().parent
sys.path.insert(0, str(HERE.parent / "memory"))
from cases import CASES, HOSTS, Whole, Wrong, compiled, ends_in, parted, told

STREAM, STORE = 3, 4
# So many calls on one file are failed at most, where there are more: some evenly among them.
MOST = 80
TRIED = (
    "an opening over a boot", "a node whose subscribers wait", "a subscription that waits", "an approval", "three notices", "notices that wait", "an audience", "two creates at once"
)


class Case(Whole):
    """A case whose calls on one file are failed in turn: the store, or a host's source or sink."""

    def __init__(self, name, program, library, what):
        self.library, self.kind, self.host = library, *what
        with tempfile.TemporaryDirectory(prefix="pubsubd-faults-") as folder:
            super().__init__(name, program, folder)
        with tempfile.TemporaryDirectory(prefix="pubsubd-faults-") as folder:
            room, count = self.room(folder), pathlib.Path(folder) / "count"
            status, _ = room.run(self.lines, {**self.failing(room, 0), "FAIL_COUNT": str(count)})
            if status:
                raise Wrong(f"{name}: the whole run ended with {status}")
            self.calls = int(count.read_text())

    def failing(self, room, number):
        """The environment of a run whose call of that number fails."""
        file = room.store if self.kind == "store" else getattr(room, self.kind)(self.host)
        return {"LD_PRELOAD": self.library, "FAIL_FILE": str(file), "FAIL_CALL": str(number)}

    def tried(self, number):
        """Runs it with that call failed, and returns its status."""
        with tempfile.TemporaryDirectory(prefix="pubsubd-faults-") as folder:
            room = self.room(folder)
            status, came = room.run(self.lines, self.failing(room, number))
            if status not in (0, STORE if self.kind == "store" else STREAM):
                raise Wrong(f"ended with {status}")
            self.must_be_front(status, came)
            self.must_serve_others(status, came, room)
            self.must_end_each(status, came, room)
            self.must_be_kept(status, came, room)
            self.must_hand_on(status, came, room)
            return status

    def must_serve_others(self, status, came, room):
        """A fault of a stream takes no reply from another one, and that of a sink no notice of a change that was made: behind it no line of the stream may be read."""
        is_whole = self.kind == "sink" and self.has_all(room)
        for host, lines in came.items():
            if status != STREAM or host == self.host:
                continue
            parts = [(parted(lines)[0], parted(self.came[host])[0]), (told(lines), told(self.came[host]))]
            for got, whole in parts[: 2 if is_whole else 1]:
                if got != whole:
                    raise Wrong(f"a fault of {self.host}'s {self.kind}, and {host} was told {got}")

    def has_all(self, room):
        """Whether the store has all changes of the whole run."""
        return len(self.new_changes(room)) == len(self.changes)

    def must_end_each(self, status, came, room):
        """A fault of a stream keeps no host's end from the store."""
        if status in (0, STREAM) and sorted(ends_in(room.store.read_bytes())) != sorted(came):
            raise Wrong(f"status {status}, and the ends are {ends_in(room.store.read_bytes())}")

    def must_hand_on(self, status, came, room):
        """The next run hands out the notices that are left, and of each address once more at most one that was written. Where only a sink failed none is left for the others."""
        is_whole = self.new_changes(room) and self.has_all(room)
        for host, lines in self.must_serve_on(status, room).items():
            if status == STREAM and self.kind == "sink" and host != self.host and told(lines):
                raise Wrong(f"a fault of {self.host}'s sink, and notices were left for {host}: {told(lines)}")
            ran, then, all_of = told(came.get(host, [])), told(lines), told(self.came[host])
            for address in ran | then | all_of:
                first, second, whole = (it.get(address, []) for it in (ran, then, all_of))
                if first and second and first[-1] == second[0]:
                    second = second[1:]
                if first + second != whole[: len(first + second)] or (is_whole and first + second != whole):
                    raise Wrong(f"status {status}, and {address} was handed {first} and then {second}")


def failed(case):
    """What each number came to: a status, or what was wrong."""

    def tried(number):
        try:
            return case.tried(number)
        except (Wrong, subprocess.TimeoutExpired) as wrong:
            return f"call {number}: {wrong}"

    with ThreadPoolExecutor(os.cpu_count()) as pool:
        return list(pool.map(tried, sorted({1 + k * case.calls // MOST for k in range(MOST)} if case.calls > MOST else range(1, case.calls + 1))))


def main(words):
    program, runs, wrong = str(pathlib.Path(words[0]).resolve()), 0, 0
    with tempfile.TemporaryDirectory(prefix="pubsubd-fail-") as folder:
        library = compiled(HERE / "fail.c", folder)
        for name in words[1:] or TRIED:
            for what in [("store", None), *((kind, host) for host in HOSTS for kind in ("source", "sink"))]:
                case = Case(name, program, library, what)
                came = failed(case)
                runs += len(came)
                wrong += sum(isinstance(it, str) for it in came)
                ends = collections.Counter("wrong" if isinstance(it, str) else f"status {it}" for it in came)
                where = case.kind if case.host is None else f"{case.kind} of {case.host}"
                print(f"{name}, {where}: {case.calls} calls: {', '.join(f'{count} {end}' for end, count in sorted(ends.items())) or 'none'}")
                for it in came:
                    if isinstance(it, str):
                        print(f"  {it}")
    print(f"faults: {runs} runs, {wrong} wrong")
    return 1 if wrong or not runs else 0


if __name__ == "__main__":
    if len(sys.argv) < 2 or any(it not in CASES for it in sys.argv[2:]):
        sys.exit(__doc__.strip())
    sys.exit(main(sys.argv[1:]))
