#!/usr/bin/env python3
"""Counts the processor seconds that the prover takes for each crate while `rt ci` runs.

    watch.py [--every SECONDS] COMMAND..    runs COMMAND, and prints the table once it has ended
    watch.py [--every SECONDS] --pid N      watches what process N starts until N ends

The prover runs once for a crate's proof, once more with its tests, once as the seed of its edits, and once for each
edit. Which of these a process is shows in its command line; its time is read from /proc while it lives, so the last
tick before its end may be missed (a tenth of a second of each, by default). The table gives seconds, a row a crate.
"""

import os
import subprocess
import sys
import time

TICK = os.sysconf("SC_CLK_TCK")
KINDS = ("proof", "tests", "seed", "edits")


def command_of(pid):
    try:
        with open(f"/proc/{pid}/cmdline", "rb") as file:
            return file.read().decode(errors="replace").split("\0")
    except OSError:
        return []


def times_of(pid):
    """Returns the parent of a process and its processor seconds, with those of its ended children."""
    try:
        with open(f"/proc/{pid}/stat") as file:
            fields = file.read().rpartition(")")[2].split()
    except OSError:
        return None
    return int(fields[1]), sum(map(int, fields[11:15])) / TICK


def kind_of(words):
    """Returns the crate and the kind of a run of the prover, or None for another process."""
    if len(words) < 4 or not words[0].endswith("/rattle") or words[1] not in ("build", "check"):
        return None
    if "--crate-name" not in words:
        return None
    name = words[words.index("--crate-name") + 1]
    if "--test" in words:
        return name, "tests"
    # A program is checked, and then built of what was checked.
    if words[1] == "build" or "-o" in words:
        return name, "proof"
    place = words[words.index("--incremental") + 1] if "--incremental" in words else ""
    return name, "seed" if place.endswith("/seed") else "edits"


def below(root, parents):
    """Tells of each process whether the root started it."""
    def is_below(pid):
        while pid in parents and pid != root:
            pid = parents[pid]
        return pid == root
    return is_below


def watch(root, is_running, every):
    """Returns the seconds of each run of the prover that the root started, by process."""
    spent, kinds = {}, {}
    while is_running():
        seen = {}
        for pid in filter(str.isdigit, os.listdir("/proc")):
            found = times_of(int(pid))
            if found:
                seen[int(pid)] = found
        is_ours = below(root, {pid: parent for pid, (parent, _) in seen.items()})
        for pid, (_, seconds) in seen.items():
            # A process has its parent's command until it runs its own.
            if not kinds.get(pid):
                kinds[pid] = kind_of(command_of(pid)) if is_ours(pid) else None
            if kinds[pid]:
                spent[pid] = (kinds[pid], seconds)
        for pid in [it for it in kinds if it not in seen]:
            if pid in spent:
                spent[(pid, len(spent))] = spent.pop(pid)
            del kinds[pid]
        time.sleep(every)
    return [*spent.values()]


def table(runs):
    sums = {}
    for (name, kind), seconds in runs:
        row = sums.setdefault(name, dict.fromkeys(KINDS, 0.0))
        row[kind] += seconds
    rows = sorted(sums.items(), key=lambda it: -sum(it[1].values()))
    whole = {kind: sum(row[kind] for _, row in rows) for kind in KINDS}
    lines = ["| Crate | Proof | Tests | Seed | Edits | Sum |", "|---|---|---|---|---|---|"]
    for name, row in [*rows, ("all", whole)]:
        lines.append(f"| {name} | " + " | ".join(f"{row[it]:.0f}" for it in KINDS) + f" | {sum(row.values()):.0f} |")
    return "\n".join(lines)


def main(words):
    every = 0.1
    if words[:1] == ["--every"]:
        every, words = float(words[1]), words[2:]
    if words[:1] == ["--pid"]:
        root = int(words[1])
        print(table(watch(root, lambda: os.path.exists(f"/proc/{root}"), every)))
        return 0
    if not words:
        print(__doc__.strip(), file=sys.stderr)
        return 2
    run = subprocess.Popen(words)
    print(table(watch(run.pid, lambda: run.poll() is None, every)))
    return run.returncode


if __name__ == "__main__":
    sys.exit(main(sys.argv[1:]))
