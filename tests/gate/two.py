#!/usr/bin/env python3
"""Runs the whole gate from nothing on two processors, in a clone of what is committed, and prints how long each step and each crate took.

    two.py [--processors 0,1] [FOLDER]      FOLDER: where the clone is made; a temporary one where none is named

Hold other work meanwhile. What earlier runs on the machine passed counts for nothing here: `rt ci` is told so by an `rt` of its own, which stands first in the
path. The first table is of the clock, the second one, by bench/gate/watch.py, of the processor: a crate's proof, its tests, what its edits begin with, its edits.
"""

import os
import pathlib
import re
import shutil
import subprocess
import sys
import tempfile
import time

ROOT = pathlib.Path(__file__).resolve().parents[2]
STEP = re.compile(r"gate: (\d+) s, status (\d+): (.*)")


def anew(folder):
    """Makes an `rt` that keeps nothing of earlier runs, and returns the path with it in front."""
    folder.mkdir()
    script = folder / "rt"
    real = os.path.realpath(shutil.which("rt"))
    script.write_text(f'#!/bin/sh\n[ "$*" = ci ] && exec {real} ci --anew\nexec {real} "$@"\n')
    script.chmod(0o755)
    return f"{folder}:{os.environ['PATH']}"


def main(words):
    processors = words[words.index("--processors") + 1] if "--processors" in words else "0,1"
    rest = [it for it in words if it not in ("--processors", processors)]
    room = pathlib.Path(rest[0] if rest else tempfile.mkdtemp(prefix="pubsubd-gate-")).resolve()
    clone = room / "clone"
    subprocess.run(["git", "clone", "-q", str(ROOT), str(clone)], check=True)
    environment = {**os.environ, "PATH": anew(room / "bin")}
    began, steps = time.time(), []
    watch = [sys.executable, str(clone / "bench/gate/watch.py"), "taskset", "-c", processors, str(clone / ".ci/run")]
    with subprocess.Popen(watch, cwd=clone, env=environment, stdout=subprocess.PIPE, text=True) as run:
        table = []
        for line in run.stdout:
            found = STEP.match(line)
            if found:
                steps.append(found.groups())
            if line.startswith("|"):
                table.append(line)
            else:
                print(line, end="", flush=True)
    print(f"\n{(time.time() - began) / 60:.0f} minutes on processors {processors}, status {run.returncode}, in {room}\n")
    print("| Step | Seconds | Status |\n|---|---|---|")
    for seconds, status, step in steps:
        print(f"| `{step}` | {seconds} | {status} |")
    print(f"\n{''.join(table)}")
    return run.returncode


if __name__ == "__main__":
    sys.exit(main(sys.argv[1:]))
