#!/usr/bin/env python3
"""Lists of requests that a number deals go through the program, and its notices are those of a second, plain writing of what is due.

    run.py PROGRAM [LISTS [FIRST]]

Each of LISTS (104) lists has some sixty deeds of four people on two hosts. A deed's line is sent once what the deeds before it were answered has come, so that
all entries stand in one order; the reply says whether the deed was accepted, and `book.py` then does it too. At the end each bare address was told
what `due.py` says, line by line and in that order.
"""
import pathlib
import re
import sys
import tempfile

HERE = pathlib.Path(__file__).resolve().parent
sys.path[:0] = [str(HERE), str(HERE.parent / "lines"), str(HERE.parent / "streams")]
from book import Book, bare
from dealt import Dealer, line
from due import lines_due
from serving import Service
from stanzas import iq

HOSTS = ("a.example", "b.example")
DEEDS = 40
# What a notice has, and no reply in these tests.
NOTICE = b'"id":"n-'
# The moment of a last item, which is the machine's.
DELAY = re.compile(rb',{"a":{"stamp":"[^"]*"},"n":"delay","ns":"urn:xmpp:delay"}')


def host_of(who):
    return bare(who).partition("@")[2]


def answered(service, deed, number):
    """The reply to the deed's line, or nothing; a question behind it says when it is there."""
    stream = service.streams[HOSTS.index(host_of(deed.who))]
    before, mark = len(stream.got), f'"id":"s{number}"'.encode()
    stream.send(line(deed), iq(deed.who, f"s{number}", "get", "query:DI"))
    service.pump(lambda: mark in stream.got[before:], 60, what=f"the answer to {line(deed)!r}")
    came = bytes(stream.got[before:]).split(b"\n")
    return next((it for it in came if it and NOTICE not in it and mark not in it), b"")


def is_done(book, deed, came):
    """Whether the deed was accepted and does something to the book."""
    if b'"type":"error"' in came:
        return False
    return deed.ask[0] != "approve" or book.state(deed.node, deed.ask[1]) == "pending"


def told(service):
    """For each bare address the lines that it was told."""
    lines = {}
    for stream in service.streams:
        for it in stream.notices():
            to = re.search(rb'"to":"([^"/]*)', it)[1].decode()
            lines.setdefault(to, []).append(DELAY.sub(b"", it))
    return lines


def differs(came, due):
    for who in sorted({*came, *due}):
        pairs = zip([*came.get(who, []), None], [*due.get(who, []), None])
        for got, wanted in pairs:
            if got != wanted:
                return f"{who} was told {got!r}, and {wanted!r} was due"
    return None


def list_of(program, folder, seed):
    """One list: how many notices it made, or what differs."""
    dealer, book, numbers, due = Dealer(seed), Book(), {}, {}
    with Service(program, folder, HOSTS) as service:
        deeds = [*dealer.beginning(), *(dealer.next() for _ in range(DEEDS))]
        for number, deed in enumerate(deeds):
            came = answered(service, deed, number)
            if not is_done(book, deed, came):
                continue
            before = book.copy()
            book.do(deed, came)
            for who, lines in lines_due(before, book, deed, numbers).items():
                due.setdefault(who, []).extend(lines)
        status, report = service.end()
        if (status, report) != (0, b""):
            return 0, f"ended with {status}, and reported {report!r}"
        return sum(map(len, due.values())), differs(told(service), due)


def main():
    program = str(pathlib.Path(sys.argv[1]).resolve())
    lists = int(sys.argv[2]) if len(sys.argv) > 2 else 104
    first = int(sys.argv[3]) if len(sys.argv) > 3 else 1
    notices = 0
    for seed in range(first, first + lists):
        with tempfile.TemporaryDirectory(prefix="pubsubd-fanout-") as folder:
            count, why = list_of(program, folder, seed)
        if why:
            print(f"fanout: list {seed}: {why}")
            return 1
        notices += count
    if notices <= 10 * lists:
        print(f"fanout: {notices} notices are too few")
        return 1
    print(f"fanout: {notices} notices of {lists} lists, each as it is due")
    return 0


if __name__ == "__main__":
    sys.exit(main())
