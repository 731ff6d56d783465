#!/usr/bin/env python3
"""Runs the blocks of commands in the pages that a new user tries, and compares what comes with the block below each.

    walk.py PROGRAM

Such a block is marked `sh` and is followed by a block of JSON lines. It is run in a new folder by a shell that finds PROGRAM under the name
pubsubd; `examples/` there is the repository's. Lines are compared without their order, since a notice comes before or behind replies.
"""
import os
import pathlib
import re
import subprocess
import sys
import tempfile

ROOT = pathlib.Path(__file__).resolve().parents[2]
WALK = re.compile(r"^```sh\n((?:(?!^```).)*?^[^\n]*\bpubsubd serve.*?)^```\n(?:(?!^```).)*?^```\n(\{.*?)^```", re.M | re.S)


def run(block, program, folder):
    """What the block's commands write."""
    here = pathlib.Path(folder)
    (here / "bin").mkdir()
    (here / "bin" / "pubsubd").symlink_to(program)
    (here / "examples").symlink_to(ROOT / "examples")
    env = dict(os.environ, PATH=f"{here / 'bin'}:{os.environ['PATH']}")
    # A program that ends without reading its source closes the pipe that the block writes to.
    done = subprocess.run(["timeout", "60", "bash", "-c", block], cwd=here, env=env, capture_output=True, text=True, stdin=subprocess.DEVNULL)
    return done.stdout


def main(program):
    wrong = count = 0
    for page in [ROOT / "README.md", *sorted((ROOT / "docs").glob("*.md"))]:
        for block, wanted in WALK.findall(page.read_text()):
            count += 1
            with tempfile.TemporaryDirectory(prefix="walk-") as folder:
                got = run(block, pathlib.Path(program).resolve(), folder)
            if sorted(got.splitlines()) != sorted(wanted.splitlines()):
                wrong += 1
                print(f"{page.name}: came\n{got}in place of\n{wanted}")
    print(f"{count} walks, {wrong} wrong")
    return 1 if wrong or not count else 0


if __name__ == "__main__":
    sys.exit(main(sys.argv[1]))
