"""Runs tests as processes of their own, each within its time."""

from __future__ import annotations

import concurrent.futures
import os
import pathlib
import signal
import subprocess
import sys
import time

ADAPTER = pathlib.Path(__file__).resolve().parent.parent.parent
REAL = ADAPTER / "tests" / "real"
DEBIANS = "/usr/bin/python3"  # the one that has Debian's libraries
# A step takes one to five minutes on a machine with nothing else to do. Each of its tests waits for what has to come, two minutes at most.
SECONDS = 1800.0


def step(name: str, words: list[str], seconds: float) -> bool:
    """Runs the command. What it writes is shown where it fails, and its lines of success in any case."""
    began = time.monotonic()
    environment = dict(os.environ) | {"PYTHONDONTWRITEBYTECODE": "1"}
    pipes = {"stdout": subprocess.PIPE, "stderr": subprocess.STDOUT, "stdin": subprocess.DEVNULL, "text": True}
    child = subprocess.Popen(words, process_group=0, cwd=ADAPTER.parent, env=environment, **pipes)
    try:
        said, _ = child.communicate(timeout=seconds)
        status = child.returncode
    except subprocess.TimeoutExpired:
        os.kill(child.pid, signal.SIGINT)  # it takes down what it started
        try:
            said, _ = child.communicate(timeout=30)
        except subprocess.TimeoutExpired:
            os.killpg(child.pid, signal.SIGKILL)
            said, _ = child.communicate()
        status = f"no end within {seconds:g} s"
    for line in said.splitlines():
        if status != 0 or line.startswith("ok "):
            print(line)
    print(f"{'ok  ' if status == 0 else 'FAIL'} {name}, {time.monotonic() - began:.0f} s{'' if status == 0 else f': {status}'}", flush=True)
    return status == 0


def units() -> bool:
    """The tests that need no server, two modules beside one another, since they wait most of their time."""
    names = {"test_parts": "the parts", "test_duties": "the duties of a router", "test_events": "what an operator meets"}

    def one(module: str) -> bool:
        return step(names[module], [sys.executable, "-W", "ignore", "-m", "unittest", f"adapter.tests.unit.{module}"], SECONDS)

    with concurrent.futures.ThreadPoolExecutor(2) as pool:
        return all(list(pool.map(one, names)))


def real(server: str, program: str, kills: int) -> bool:
    """Both libraries, and the kills."""
    passed = True
    for script, more in (("slix.py", []), ("aiox.py", []), ("endure.py", [str(kills)])):
        words = [DEBIANS, "-W", "ignore", str(REAL / script), server, program, *more]
        passed = step(f"{script} with {server}", words, SECONDS) and passed
    return passed
