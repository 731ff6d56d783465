#!/usr/bin/env python3
"""A source that gives 2^40 bytes, beside one that ends a byte earlier.

    sources.py PROGRAM [SECONDS]     SECONDS: most for the run (7,200); it reads each byte of both, which takes ten minutes on two free processors

Both are streams of one run, over files that have holes: a line that makes a node, a line of nothing but zeros, another that makes a node. The first source's last line ends with the
2^40th byte, and one more line stands behind it, which isn't read. The second has no newline at its end. Each line is answered, and the run ends with status 8.
"""
import json
import os
import pathlib
import subprocess
import sys
import tempfile

HERE = pathlib.Path(__file__).resolve().parent
sys.path.insert(0, str(HERE.parent / "memory"))
from cases import HOSTS, changes_in, ends_in
from stanzas import SERVICE, create

MOST = 1 << 40
LONG = 8
# A file system in memory reads holes faster than a disk's.
PLACE = "/dev/shm" if os.path.isdir("/dev/shm") else None


class Wrong(Exception):
    """Something else came than is wanted."""


def write_source(path, host, end, rest):
    """A line, zeros, and a line that ends there, with the rest behind it."""
    first, last = (create(f"ann@{host}/1", number, f"{node}-{host}") for number, node in ((1, "first"), (3, "last")))
    with open(path, "wb") as out:
        out.write(first + b"\n")
        out.seek(end - len(last) - 1)
        out.write(b"\n" + last + rest)


def expect(what, came, wanted):
    if came != wanted:
        raise Wrong(f"{what}: {came}, not {wanted}")


def told(path):
    """What each line of a sink is: the id and the type of a reply, or the line that was refused, and why."""
    for line in path.read_bytes().split(b"\n")[:-1]:
        told = json.loads(line)["a"]
        yield (told["line"], told["why"]) if "why" in told else (told["id"], told["type"])


def run(program, seconds, folder):
    store, (a, b) = folder / "store", HOSTS
    beyond = b"\n" + create(f"ann@{a}/1", 4, "beyond") + b"\n"
    write_source(folder / f"{a}.in", a, MOST - 1, beyond)
    write_source(folder / f"{b}.in", b, MOST - 1, b"")
    expect("the sizes", [(folder / f"{it}.in").stat().st_size for it in HOSTS], [MOST - 1 + len(beyond), MOST - 1])
    words = [program, "serve", "--service", SERVICE, "--store", str(store)]
    for host in HOSTS:
        words += [host, str(folder / f"{host}.in"), str(folder / f"{host}.out")]
    done = subprocess.run(words, capture_output=True, timeout=seconds, check=False)
    expect("the run", (done.returncode, done.stdout), (LONG, b"stream too long\n"))
    for host in HOSTS:
        expect(host, list(told(folder / f"{host}.out")), [("1", "result"), ("2", "too-long"), ("3", "result")])
    left = store.read_bytes()
    expect("the changes", sorted(changes_in(left)), [(host, line) for host in HOSTS for line in (1, 3)])
    expect("the ends", sorted(ends_in(left)), list(HOSTS))


def main(words):
    program, seconds = str(pathlib.Path(words[0]).resolve()), int(words[1]) if len(words) > 1 else 7200
    with tempfile.TemporaryDirectory(prefix="pubsubd-sources-", dir=PLACE) as folder:
        try:
            run(program, seconds, pathlib.Path(folder))
        except (Wrong, OSError, subprocess.TimeoutExpired) as wrong:
            print(f"FAIL a source of 2^40 bytes: {wrong}")
            return 1
    print("ok   a source of 2^40 bytes")
    return 0


if __name__ == "__main__":
    if len(sys.argv) < 2:
        sys.exit(__doc__.strip())
    sys.exit(main(sys.argv[1:]))
