#!/usr/bin/env python3
"""Refuses each growth of memory in tests of crates in turn: of what no run of the program brings about.

    tests.py [CRATE..]      CRATE: of those of TESTS, or all. Each wants `rt test` in its folder, which leaves the program of its tests in out/

These are journals at their limits, disks that crash behind each of their calls, and openings within limits. It is counted how often a test grows; then it is run once for each number,
and that growth is refused by refuse.c. Each run passes, or fails by the refusal alone, once the test has seen that the store opens after any crash and holds what was kept.
"""
import os
import pathlib
import subprocess
import sys
import tempfile
import time

from cases import HERE, SECONDS, Wrong, compiled
from memory import refused, told

CRATES = HERE.parents[1] / "crates"
TESTS = {
    "ps_hall_store_tests": ("disks::a_disk_tears_what_it_kept_not_and_fails_when_told", "stores::a_store_keeps_a_front_through_crashes_and_faults"),
    "ps_hall_tests": ("limits::a_store_opens_where_its_boot_fits", "lives::a_line_whose_entry_finds_no_room_is_told_so"),
}
PASSED, FAILED = 0, 101
# What a test says that failed by the refusal: as the crates name it, and as the standard library does.
REFUSALS = [b"error: %s\nthe test failed: its result gives status 1\n" % it for it in (b"Memory", b"AllocError", b"AllocFailed { .. }")]


class Test:
    """A test with the number of its growths, each of which can be refused."""

    def __init__(self, crate, name, library):
        self.program, self.test, self.library = CRATES / crate / "out" / f"{crate}_tests", name, library
        self.name = f"{crate} {name}"
        if not self.program.is_file():
            raise Wrong(f"{self.program} isn't there: rt test in {CRATES / crate} makes it")
        with tempfile.TemporaryDirectory(prefix="pubsubd-tests-") as folder:
            count = pathlib.Path(folder) / "count"
            if self.run(0, REFUSE_COUNT=str(count))[0] != PASSED:
                raise Wrong(f"{self.name}: fails with ample memory")
            self.growths = int(count.read_text())

    def run(self, number, **more):
        """Runs it with that growth refused, and returns its status and what it says of a failure."""
        environment = {**os.environ, "LD_PRELOAD": self.library, "REFUSE": str(number), **more}
        done = subprocess.run([self.program, self.test], env=environment, capture_output=True, timeout=SECONDS, check=False)
        return done.returncode, done.stderr

    def tried(self, number):
        status, said = self.run(number)
        if (status, said) != (PASSED, b"") and (status != FAILED or said not in REFUSALS):
            raise Wrong(f"ended with {status}, and said {said.decode(errors='replace')}")
        return status


def main(words):
    failed = 0
    with tempfile.TemporaryDirectory(prefix="pubsubd-refuse-") as folder:
        library = compiled(HERE / "refuse.c", folder)
        for crate in words or TESTS:
            for name in TESTS[crate]:
                began = time.monotonic()
                try:
                    test = Test(crate, name, library)
                except Wrong as wrong:
                    sys.exit(str(wrong))
                failed += told(test, refused(test, test.growths))
                print(f"  {time.monotonic() - began:.0f} s", flush=True)
    return 1 if failed else 0


if __name__ == "__main__":
    sys.exit(main(sys.argv[1:]))
