#!/usr/bin/env python3
"""Each exit status of the program but two, with its report: 6 wants a store of a gigabyte (full.py), and 8 a source of 2^40 bytes (tests/sizes/sources.py).

Usage: statuses.py PROGRAM
"""
import pathlib
import resource
import signal
import subprocess
import sys
import tempfile

sys.path.insert(0, str(pathlib.Path(__file__).resolve().parent.parent / "lines"))
from commands import BOB, USAGE
from operating import LINE, Wrong, words
from stanzas import SERVICE, notice

MEBIBYTE = 1 << 20


def limited(what, most):
    """Returns what sets a limit of the system in a process: a call that would pass it fails."""

    def to_begin():
        signal.signal(signal.SIGXFSZ, signal.SIG_IGN)
        resource.setrlimit(what, (most, most))

    return to_begin


def done(folder, there):
    return words("", folder / "store", there, folder / "out")[1:], None


def usage(folder, there):
    return ["serve"], None


def stream_fault(folder, there):
    return words("", folder / "store", there, "/dev/full")[1:], None


def store_fault(folder, there):
    """No file may pass 64 bytes, so the Boot of the run can't be written."""
    return words("", folder / "store", there, "/dev/null")[1:], limited(resource.RLIMIT_FSIZE, 64)


def store_damaged(folder, there):
    (folder / "store").write_bytes(b"no store")
    return words("", folder / "store", there, folder / "out")[1:], None


def out_of_memory(folder, there):
    """The items of a mirror have more bytes than there is memory."""
    with open(folder / "notices", "wb") as out:
        for number in range(1, 401):
            out.write(notice(BOB, number, "news", f"i{number}", "a" * 200_000) + b"\n")
    return ["mirror", SERVICE, "news", BOB, "1000", str(folder / "notices")], limited(resource.RLIMIT_AS, 48 * MEBIBYTE)


def open_fault(folder, there):
    return words("", folder / "missing" / "store", there, folder / "out")[1:], None


def store_occupied(folder, there):
    (folder / "new").write_bytes(b"no store")
    (folder / "store").write_bytes(b"")
    return ["compact", str(folder / "store"), str(folder / "new")], None


def feed_bad(folder, there):
    (folder / "feed").write_bytes(bytes(7) + b"\x63" + b"\0\0\0\x01\x04")
    return ["follow", "a.example", str(folder / "feed"), str(there), str(folder / "out")], None


STATUSES = {
    done: (0, b""),
    usage: (2, USAGE),
    stream_fault: (3, b"stream fault\n"),
    store_fault: (4, b"store fault\n"),
    store_damaged: (5, b"store damaged at 0\n"),
    out_of_memory: (7, b"out of memory\n"),
    open_fault: (9, b"open fault\n"),
    store_occupied: (10, b"store occupied\n"),
    feed_bad: (11, b"feed bad at 0\n"),
}


def main():
    if len(sys.argv) != 2:
        sys.exit(__doc__.strip())
    program = str(pathlib.Path(sys.argv[1]).resolve())
    for case, wanted in STATUSES.items():
        with tempfile.TemporaryDirectory() as name:
            folder = pathlib.Path(name)
            there = folder / "in"
            there.write_bytes(LINE)
            told, to_begin = case(folder, there)
            ended = subprocess.run([program, *map(str, told)], capture_output=True, timeout=60, check=False, preexec_fn=to_begin)
            came = (ended.returncode, ended.stdout)
        if b"AddressSanitizer" in ended.stderr:
            print(f"     status {wanted[0]} wants a proved program")
            continue
        if came != wanted:
            print(f"FAIL {case.__name__}: came {came!r}, wanted {wanted!r}; {ended.stderr!r}")
            sys.exit(1)
        print(f"ok   status {wanted[0]}")


if __name__ == "__main__":
    main()
