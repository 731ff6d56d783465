"""Makes the rows of lines at two services that the tests of `ps_secrecy_step_tests` go through, or checks that they are those of the cases.

    python3 tests/lines/pairs.py            writes crates/ps_secrecy_step_tests/src/rows/NAME.rt for each pairs/NAME.txt
    python3 tests/lines/pairs.py --check    compares them, and ends with 1 where they differ

A table has two halves for each step, of which the first is the left service's and the other the right one's. Each half has the lines of a
step of hosts.py (specified in `src/rows.rt` there).

A file begins with two services that were just booted. Its cases are those of hosts.py, without repetition. One that begins with `left ` or
`right ` is for that service alone, and a left one has its right one below it; any other is for both.
"""
import pathlib
import sys

import hosts
import make

HERE = pathlib.Path(__file__).resolve().parent
ROWS = HERE.parent.parent / "crates" / "ps_secrecy_step_tests" / "src" / "rows"
SIDES = ("left", "right")


def half(number, text, *below):
    """The lines of a case at one of the services."""
    head = hosts.alone(text)
    if head is not None:
        return hosts.record(head)
    answer, *told = below
    makes = answer.startswith("* ")
    host, line, head = hosts.sent(number, text)
    step = hosts.record(host + " makes" * makes, line, make.received(number, head, answer.removeprefix("* ")))
    return step + [hosts.notice(text) for text in told]


def halves(path):
    """The halves of a file's steps, left and right by turns."""
    found = []
    for text, *below in hosts.cases(path):
        side, _, rest = text.partition(" ")
        number = len(found) // 2 + 1
        if side not in SIDES:
            found += 2 * [half(number, text, *below)]
            continue
        if side != SIDES[len(found) % 2]:
            raise ValueError(f"{path.name}: {text}")
        found.append(half(number, rest, *below))
    return [[*left, "=", *right] for left, right in zip(found[::2], found[1::2])]


def main():
    script = pathlib.Path(__file__).resolve().relative_to(HERE.parent.parent)
    files = {ROWS / f"{path.stem}.rt": hosts.content(path, halves(path), script).encode() for path in sorted((HERE / "pairs").glob("*.txt"))}
    return hosts.write_or_check(files)


if __name__ == "__main__":
    sys.exit(main())
