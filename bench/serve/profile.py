"""Where the program's instructions go as it makes nodes.

Usage: profile.py PROGRAM FOLDER. It runs the program over LINES (20000) lines under callgrind, which counts instructions and not time, and
prints which share of them each call of the list below takes with all that it calls. With ALL=N it prints the N dearest functions too.
"""
import os
import pathlib
import re
import subprocess
import sys

import corpus

CALLS = [
    ("answering lines in the hall", r"ps_hall::arrive::.*lay$"),
    ("making and printing the replies, also those of a full store", r"ps_hall_state::replies::replies_at"),
    ("preparing the change on the second copy of the state", r"ps_core::service::Service::prepare(_known)?$"),
    ("spelling the entry", r"ps_record::batch::Batch::push$"),
    ("reading lines and entries as trees", r"ps_wire::read::read_tree"),
    ("printing trees", r"ps_wire::print::print_tree"),
    ("taking memory", r"rattle_alloc$"),
    ("giving it back", r"rattle_dealloc$"),
]


def counted(program, folder, lines):
    """The inclusive instruction counts of a run, by function."""
    source, sink, store, out = (folder / name for name in ("in", "out", "store", "callgrind"))
    source.write_text("".join(lines))
    sink.write_bytes(b"")
    store.unlink(missing_ok=True)
    words = [program, "serve", "--service", "pubsub.example", "--store", store, "a.example", source, sink]
    subprocess.run(["valgrind", "--tool=callgrind", f"--callgrind-out-file={out}", *words], check=True, capture_output=True)
    told = subprocess.run(["callgrind_annotate", "--inclusive=yes", "--threshold=100", out], check=True, capture_output=True, text=True)
    rows = re.findall(r"^\s*([\d,]+) \([ \d.]+%\)\s+(?:\?\?\?|\S+?):(.+?)(?: \[.*\])?$", told.stdout, re.M)
    return [(int(count.replace(",", "")), name.strip()) for count, name in rows]


def main():
    program, folder = sys.argv[1], pathlib.Path(sys.argv[2])
    number = int(os.environ.get("LINES", "20000"))
    rows = counted(program, folder, corpus.creating(number)[0][1])
    whole = max(count for count, _ in rows)
    print(f"{whole / number:.0f} instructions a line; parts of these, of which some lie in one another")
    for what, pattern in CALLS:
        print(f"{max((count for count, name in rows if re.search(pattern, name)), default=0) / whole:6.2f}  {what}")
    if os.environ.get("ALL"):
        for count, name in rows[: int(os.environ["ALL"])]:
            print(f"{count / whole:6.3f}  {name}")


main()
