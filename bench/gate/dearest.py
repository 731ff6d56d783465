#!/usr/bin/env python3
"""Lists the functions of a crate whose proof took longest.

    dearest.py FOLDER [COUNT]       FOLDER: a crate that one job checked from nothing (rm -r out; rt check --jobs 1)

The prover saves what it checked module by module as it goes, so the time between two files is that of the later one.
Of a function, `Lts` is what its body comes to, every way out of it and every drop; `Proof` its goals, with what
`search` and `grind` took to find answers; `Tie` and the rest what joins them. Seconds of the clock: hold other work.
"""

import collections
import os
import pathlib
import re
import sys

PARTS = re.compile(r"\.(Lts|Proof|Tie|Code|Kinds|Carried|Goals|Answers|Invariants|Statement|Met|Key|The\w+)(?=[.-]|$).*")


def saved(folder):
    """Returns the saved modules of the last check, with their times, in the order in which they were saved."""
    kept = max((pathlib.Path(folder) / "out" / "incremental").iterdir(), key=os.path.getmtime)
    return sorted((file.stat().st_mtime_ns, file.stem) for file in kept.glob("*.oantt"))


def spent(modules):
    """Returns the seconds of each function, by part."""
    sums = collections.defaultdict(collections.Counter)
    for (before, _), (after, module) in zip(modules, modules[1:]):
        part = PARTS.search(module)
        sums[PARTS.sub("", module)][part[1] if part else "itself"] += (after - before) / 1e9
    return sums


def main(folder, count="10"):
    sums = spent(saved(folder))
    print(f"{sum(map(sum, (it.values() for it in sums.values()))):.0f} s in all")
    for name, parts in sorted(sums.items(), key=lambda it: -sum(it[1].values()))[: int(count)]:
        most = ", ".join(f"{part} {took:.1f}" for part, took in parts.most_common(3) if took >= 0.1)
        print(f"{sum(parts.values()):7.1f}  {name}  ({most})")


if __name__ == "__main__":
    if len(sys.argv) < 2:
        sys.exit(__doc__.strip())
    main(*sys.argv[1:])
