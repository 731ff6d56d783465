#!/usr/bin/env python3
"""Records a second into a follower, beside opening the same entries, and the memory of both.

Usage: run.py PROGRAM [CHANGES..] (10000 100000)

A store of so many nodes is made in memory (FAST, /dev/shm). `pubsubd feed` writes its records, `pubsubd follow` takes them from that file with an input that is empty, and `pubsubd serve` opens the store with an input that
is empty. Seconds are the processor's, medians of ROUNDS (3), by turns; memory is the peak.
"""
import os
import pathlib
import statistics
import sys
import tempfile

ROOT = pathlib.Path(__file__).resolve().parent.parent.parent
sys.path.insert(0, str(ROOT / "tests" / "lines"))
import stanzas

ROUNDS = int(os.environ.get("ROUNDS", "3"))


def run(*words):
    """Returns the seconds of the processor that the words took, and the peak of memory in MB."""
    child = os.fork()
    if child == 0:
        null = os.open(os.devnull, os.O_RDWR)
        os.dup2(null, 0)
        os.dup2(null, 1)
        os.execv(words[0], [str(word) for word in words])
    _, status, used = os.wait4(child, 0)
    if status != 0:
        sys.exit(f"bench: {' '.join(map(str, words))}: {status}")
    return used.ru_utime + used.ru_stime, used.ru_maxrss / 1024


def main():
    program = str(pathlib.Path(sys.argv[1]).resolve())
    for changes in map(int, sys.argv[2:] or ["10000", "100000"]):
        with tempfile.TemporaryDirectory(dir=os.environ.get("FAST", "/dev/shm")) as room:
            here = pathlib.Path(room)
            (here / "none").write_bytes(b"")
            (here / "in").write_bytes(b"".join(stanzas.create(f"maker{number % 97}@a.example/1", number, f"node-{number}") + b"\n" for number in range(changes)))
            serve = [program, "serve", "--service", "pubsub.example", "--store", here / "store", "a.example"]
            run(*serve, here / "in", here / "out")
            feeds, follows, opens = [], [], []
            for _ in range(ROUNDS):
                feeds.append(run(program, "feed", here / "store", "0", here / "feed"))
                follows.append(run(program, "follow", "a.example", here / "feed", here / "none", here / "out"))
                opens.append(run(*serve, here / "none", here / "out"))
            size = (here / "feed").stat().st_size / 1e6
            feed, follow, opened = (statistics.median(seconds for seconds, _ in many) for many in (feeds, follows, opens))
            peaks = [max(peak for _, peak in many) for many in (feeds, follows, opens)]
            print(f"{changes} changes, {size:.1f} MB: fed in {feed:.2f} s, taken in {follow:.2f} s ({changes / follow:,.0f} a second), opened in {opened:.2f} s; taken in {follow / opened:.2f} of it; peak {peaks[0]:.0f}, {peaks[1]:.0f}, {peaks[2]:.0f} MB", flush=True)


if __name__ == "__main__":
    main()
