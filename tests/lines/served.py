#!/usr/bin/env python3
"""Runs the program over the cases on two hosts, tests/lines/hosts, and compares each reply and each notice, byte for byte.

Usage: served.py PROGRAM [NAME..]

The two streams are those of a.example and b.example. Each line is written once the lines before it are answered; behind one that gets no reply comes a question
of another sender, whose answer says that it was taken. `gone` ends a stream's source, and `boot` is another run over the same store, with both streams. A
step on a stream that has ended, without a boot before it, can't be run: a file is run up to it, and how far is printed. The moments are the
system's and not those of the cases, so a notice is compared without the stamp of a delay (XEP-0203). Notices to other hosts are kept by the store, and don't
come. Replies are compared in their order, and of each bare address the notices in theirs.
"""
import json
import pathlib
import re
import sys
import tempfile
import time

import hosts

HERE = pathlib.Path(__file__).resolve().parent
sys.path.insert(0, str(HERE.parent / "streams"))
from serving import Late, Service
from stanzas import is_notice

HOSTS = ["a.example", "b.example"]
ASK = '{"a":{"from":"barrier@%s/1","id":"barrier","to":"pubsub.example","type":"get"},"c":[{"n":"query","ns":"http://jabber.org/protocol/disco#info"}],"n":"iq"}'


class Wrong(Exception):
    """Something else came than is wanted."""


def unstamped(line):
    """The line without the delay that stands last in a notice of an earlier moment."""
    delay = rb',\{"a":\{"stamp":"\d{4}-\d\d-\d\dT\d\d:\d\d:\d\dZ"\},"n":"delay","ns":"urn:xmpp:delay"\}(?=\],"n":"message"\}$)'
    return re.sub(delay, b"", line)


def is_barrier(line):
    return json.loads(line)["a"].get("id") == "barrier"


class Run:
    """One run of the program, with what its streams are to have."""

    def __init__(self, program, folder):
        self.service = Service(program, folder, HOSTS)
        self.replies, self.sent = {host: [] for host in HOSTS}, {host: 0 for host in HOSTS}

    def stream(self, host):
        return self.service.streams[HOSTS.index(host)]

    def take(self, host, line, reply):
        """Writes a line, and waits for its reply, or for that of a question behind it."""
        stream = self.stream(host)
        if reply:
            self.replies[host].append(reply)
        stream.send(line, *([] if reply else [(ASK % host).encode()]))
        self.sent[host] += 1
        self.service.pump(lambda: len(stream.replies()) >= self.sent[host], 20, what=f"the reply to {line!r}")

    def gone(self, host):
        """Ends a source. That it was read to its end shows nowhere, so some time is given."""
        self.stream(host).end_source()
        time.sleep(0.5)

    def end(self):
        """Ends the run, compares its replies, and gives its notices."""
        with self.service as service:
            status, report = service.end(30)
        if (status, report) != (0, b""):
            raise Wrong(f"the program ended with {status}, and reported {report!r}")
        notices = []
        for host in HOSTS:
            got = [line for line in self.stream(host).replies() if not is_barrier(line)]
            for at, (one, other) in enumerate(zip(got, self.replies[host])):
                if one != other:
                    raise Wrong(f"reply {at + 1} on {host}:\n    came   {one!r}\n    wanted {other!r}")
            notices += self.stream(host).notices()
        return notices


def by_address(lines):
    """Of each bare address of a host that is served, its notices."""
    found = {}
    for line in lines:
        who = json.loads(line)["a"]["to"].partition("/")[0]
        if who.partition("@")[2] in HOSTS:
            found.setdefault(who, []).append(unstamped(line))
    return found


def compare(got, wanted):
    got, wanted = by_address(got), by_address(wanted)
    for who in sorted({*got, *wanted}):
        one, other = got.get(who, []), wanted.get(who, [])
        for at in range(max(len(one), len(other))):
            if one[at:at + 1] != other[at:at + 1]:
                raise Wrong(f"notice {at + 1} to {who}:\n    came   {one[at:at + 1]}\n    wanted {other[at:at + 1]}")


def ran(program, path, folder):
    """How many of the file's steps were run, and how many it has."""
    steps, gone, got, wanted, count = hosts.steps(path), set(), [], [], 0
    run = Run(program, folder)
    try:
        for head, line, reply, *told in steps:
            word, *rest = head.split()
            if word == "boot":
                got += run.end()
                run, gone = Run(program, folder), set()
            elif word == "gone":
                run.gone(rest[0])
                gone.add(rest[0])
            elif word in HOSTS:
                if word in gone:
                    break
                run.take(word, line.encode(), reply.encode())
                wanted += [text.split(" ", 3)[3].encode() for text in told]
            count += 1
        got += run.end()
    finally:
        run.service.__exit__()
    compare(got, wanted)
    return count, len(steps)


def main():
    program = pathlib.Path(sys.argv[1]).resolve()
    status = 0
    for name in sys.argv[2:] or sorted(path.stem for path in (HERE / "hosts").glob("*.txt")):
        with tempfile.TemporaryDirectory(prefix="served-") as folder:
            try:
                why = "%d of %d steps, as in the cases" % ran(program, HERE / "hosts" / f"{name}.txt", folder)
            except (Wrong, Late, OSError) as error:
                why, status = f"{type(error).__name__}: {error}", 1
        print(f"{name}: {why}", flush=True)
    return status


if __name__ == "__main__":
    sys.exit(main())
