#!/usr/bin/env python3
"""Crashes of the program, with memory refused before the crash or after it.

    crashes.py PROGRAM [MOST [CASE..]]     MOST: so many growths of each run at most, evenly dealt (2,000); CASE: of those in cases.py, or those of TRIED

A run is traced by fail.c: what it writes to its store, when it syncs, and what it tells. A crash between two calls leaves of what was written since the last sync nothing, all, a
half, or other bytes. Each growth of the run is refused in turn, by refuse.c, and each store that a crash of that run may leave is opened: it holds all changes from before, and
a front of the run's with each one that was answered until the crash. Then each store that a crash of the whole run may leave is opened once for each growth of the opening, which
is refused: that ends well or by status 7, and the store then opens with the changes that it has otherwise.
"""
import json
import os
import pathlib
import subprocess
import sys
import tempfile
import time
from concurrent.futures import ThreadPoolExecutor

from cases import CASES, HERE, HOSTS, SECONDS, Whole, Wrong, changes_in, compiled

MEMORY = 7
TRIED = ("a create", "a publish", "two creates at once")
# What a crash may put in the place of bytes that were written and not synced.
OTHER = (0, 1, 80)


def events_in(trace):
    """What a trace tells, in order: (write, place, bytes), (sync, ..) of the store, and (tell, file, bytes) of others."""
    at = 0
    while at < len(trace):
        end = trace.index(b"\n", at)
        what, *numbers = trace[at:end].split()
        place, size = map(int, numbers) if numbers else (0, 0)
        at = end + 1 + size
        yield what.decode(), place, trace[end + 1 : at]


def over(store, place, piece):
    """A store with a piece over its bytes, or behind them."""
    return store[:place] + piece + store[place + len(piece) :]


def torn(kept, written):
    """The stores that a crash may leave of these bytes and of what was written since, at places."""
    for change in (lambda piece: b"", lambda piece: piece, lambda piece: piece[: len(piece) // 2], *(lambda piece, other=it: bytes([other]) * len(piece) for it in OTHER)):
        store = kept
        for place, piece in written:
            store = over(store, place, change(piece))
        yield store


def crashes(before, events):
    """Each store that a crash may leave, with all that was told before the last crash that may leave it, by files."""
    kept, seen, written, told, found = before, before, [], {}, {before: {}}
    for what, place, piece in events:
        if what == "tell":
            told = {**told, place: told.get(place, b"") + piece}
        elif what == "sync":
            kept, written = seen, []
        else:
            seen, written = over(seen, place, piece), [*written, (place, piece)]
        found.update((store, told) for store in torn(kept, written))
    return found


def results_in(told):
    """The host and the number of each line that was told a result."""
    trees = [json.loads(line)["a"] for text in told.values() for line in text.split(b"\n")[:-1] if line.startswith(b"{")]
    return {(it["to"].split("@")[1].split("/")[0], int(it["id"])) for it in trees if it.get("type") == "result" and it["id"].isdigit()}


class Crashing(Whole):
    """A case whose stores are cut as a crash may cut them."""

    def __init__(self, name, program, libraries):
        with tempfile.TemporaryDirectory(prefix="pubsubd-crashes-") as folder:
            super().__init__(name, program, folder, libraries)
        self.earlier, self.openings = changes_in(self.before), {}
        status, events, self.growths = self.traced(0)
        self.must_be_whole(status)
        self.left = list(crashes(self.before, events))

    def traced(self, number):
        """Runs it with that growth refused: its status, what it did, and how often it grew."""
        with tempfile.TemporaryDirectory(prefix="pubsubd-crashes-") as folder:
            room = self.room(folder)
            trace, count = room.folder / "trace", room.folder / "count"
            more = {"REFUSE": str(number), "REFUSE_COUNT": str(count), "FAIL_FILE": str(room.store), "FAIL_TRACE": str(trace)}
            status, _ = room.run(self.lines, self.environment(room, **more))
            return status, list(events_in(trace.read_bytes())), int(count.read_text()) if count.exists() else 0

    def changes_of(self, store):
        """Opens a store, once however often it was left, and returns the changes that it then has."""
        if store not in self.openings:
            self.openings[store] = self.opened(store)
        status, left, _ = self.openings[store]
        if status:
            raise Wrong(f"a store of {len(store)} bytes opens with {status}")
        return changes_in(left)

    def opened(self, store, **more):
        """Opens a store: the status, what is left of it, and how often that grew, if it was counted."""
        with tempfile.TemporaryDirectory(prefix="pubsubd-crashes-") as folder:
            room = self.room(folder)
            room.store.write_bytes(store)
            count = room.folder / "count"
            status, _ = room.run(([], []), self.environment(room, REFUSE_COUNT=str(count), **more) if more else {})
            return status, room.store.read_bytes(), int(count.read_text()) if count.exists() else 0

    def must_be_front_of(self, changes, told):
        """The changes are those from before and a front of each host's, with each that was told."""
        own = changes[len(self.earlier) :]
        if changes[: len(self.earlier)] != self.earlier:
            raise Wrong(f"of the changes from before {changes} are left")
        for host in HOSTS:
            found, whole = ([it for it in every if it[0] == host] for every in (own, self.changes))
            if found != whole[: len(found)]:
                raise Wrong(f"the changes of {host} are {found}, of {whole}")
        lost = results_in(told) & set(self.changes) - set(own)
        if lost:
            raise Wrong(f"the answered lines {sorted(lost)} are lost")

    def crashed(self, number):
        """Refuses that growth, and opens each store that a crash of the run may leave. Returns how many they are."""
        status, events, _ = self.traced(number)
        if status not in (0, MEMORY):
            raise Wrong(f"ended with {status}")
        stores = crashes(self.before, events)
        for store, told in stores.items():
            self.must_be_front_of(self.changes_of(store), told)
        return len(stores)

    def reopened(self, store, most):
        """Opens a store with each growth refused in turn, and returns how many they are."""
        changes = self.changes_of(store)
        numbers = range(1, (growths := self.opened(store, REFUSE="0")[2]) + 1, -(-growths // most))
        for number in numbers:
            status, left, _ = self.opened(store, REFUSE=str(number))
            if status not in (0, MEMORY):
                raise Wrong(f"a store of {len(store)} bytes, growth {number}: ended with {status}")
            if changes_in(left) != changes or self.changes_of(left) != changes:
                raise Wrong(f"a store of {len(store)} bytes, growth {number}: status {status}, and the changes aren't {changes}")
        return len(numbers)


def each(tried, given):
    """Tries each in turn, and returns the sum of what came, and what was wrong."""

    def one(it):
        try:
            return tried(it), None
        except Wrong as wrong:
            return 0, f"{it if isinstance(it, int) else len(it)}: {wrong}"
        except subprocess.TimeoutExpired:
            return 0, f"no end within {SECONDS} s"

    with ThreadPoolExecutor(os.cpu_count()) as pool:
        came = list(pool.map(one, given))
    return sum(number for number, _ in came), [wrong for _, wrong in came if wrong]


def tried(case, most):
    """Tries a case, tells what came of it, and returns how much was wrong."""
    began, numbers = time.monotonic(), range(1, case.growths + 1, -(-case.growths // most))
    stores, wrong = each(case.crashed, numbers)
    print(f"{case.name}: {case.growths} growths, {len(numbers)} refused one by one: {stores} stores of crashes, {len(wrong)} wrong", flush=True)
    openings, more = each(lambda store: case.reopened(store, most), case.left)
    print(f"  {len(case.left)} stores of crashes: {openings} growths refused one by one as they are opened, {len(more)} wrong, {time.monotonic() - began:.0f} s", flush=True)
    for it in (wrong + more)[:20]:
        print(f"  {it}", flush=True)
    return len(wrong) + len(more)


def main(words):
    program, most, failed = str(pathlib.Path(words[0]).resolve()), int(words[1]) if len(words) > 1 else 2000, 0
    with tempfile.TemporaryDirectory(prefix="pubsubd-refuse-") as folder:
        libraries = [compiled(it, folder) for it in (HERE / "refuse.c", HERE.parent / "faults" / "fail.c")]
        for name in words[2:] or TRIED:
            try:
                case = Crashing(name, program, libraries)
                if not case.growths:
                    raise Wrong(f"{name}: no growth was counted: an unproved build has a malloc of its own, so this wants a proved one")
            except Wrong as wrong:
                sys.exit(str(wrong))
            failed += tried(case, most)
    return 1 if failed else 0


if __name__ == "__main__":
    if len(sys.argv) < 2:
        sys.exit(__doc__.strip())
    sys.exit(main(sys.argv[1:]))
