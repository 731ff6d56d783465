#!/usr/bin/env python3
"""Runs the examples, and compares what comes with what stands beside them.

Usage: run.py PROGRAM [NAME..]

An example is a folder of examples/ with a.in and a.out, and b.in and b.out where it needs a second stream: the lines that are written to the streams of
a.example and b.example, and those that come. Over both streams the lines are written in the order of their ids, each once those before it are
answered; one whose id is no number is written behind the line above it. Replies are compared in their order, and of each address the notices; whether a
notice comes before a reply or behind it is free. What examples/nodes.txt gives stands in README.md.

Where `commands` stands there too, it has commands over the store that is left: behind `$ ` their words, in which STORE is the store, and in the lines behind them what they report.

Where mirror.in stands there too, it is what bob was told over more than one run: the lines of b.out, some of them again. `mirror` must make mirror.out of it, and these are the items of the
last reply in b.out.
"""
import json
import pathlib
import subprocess
import sys
import tempfile

TOP = pathlib.Path(__file__).resolve().parent.parent.parent
sys.path.insert(0, str(TOP / "tests" / "streams"))
from serving import Late, Service
from notation import PUBSUB
from stanzas import is_notice


class Wrong(Exception):
    """Something else came than is wanted."""


def id_of(line):
    return json.loads(line)["a"].get("id")


def parted(lines):
    """The replies, and of each bare address the notices."""
    notices = {}
    for line in filter(is_notice, lines):
        notices.setdefault(json.loads(line)["a"]["to"].partition("/")[0], []).append(line)
    return [line for line in lines if not is_notice(line)], notices


def in_order(sources):
    """Each line with the number of its stream, in the order in which they are written."""
    found = []
    for at, lines in enumerate(sources):
        number = 0
        for place, line in enumerate(lines):
            number = int(id_of(line)) if id_of(line).isdigit() else number
            found.append((number, at, place, line))
    return [(at, line) for _, at, _, line in sorted(found)]


def compare(what, got, wanted):
    (replies, notices), (all_replies, all_notices) = parted(got), parted(wanted)
    if replies != all_replies:
        at = next((at for at, pair in enumerate(zip(replies, all_replies)) if pair[0] != pair[1]), min(len(replies), len(all_replies)))
        raise Wrong(f"{what}: of {len(all_replies)} replies number {at + 1} differs: {replies[at:at + 1]}")
    if notices != all_notices:
        raise Wrong(f"{what}: notices that differ: {sorted(set(got) ^ set(wanted))}")


def commands_in(path):
    """The words of each command, and the lines that it reports."""
    found = []
    for line in path.read_text(encoding="utf-8").splitlines():
        if line.startswith("$ "):
            found.append((line[2:].split(), []))
        else:
            found[-1][1].append(line)
    return found


def run_commands(program, path, folder):
    for words, wanted in commands_in(path):
        told = [f"{folder}/store" if word == "STORE" else word for word in words]
        ended = subprocess.run([program, *told], timeout=60, capture_output=True, text=True)
        if (ended.returncode, ended.stdout.splitlines()) != (0, wanted):
            raise Wrong(f"{' '.join(words)} ended with {ended.returncode}, and reported {ended.stdout!r}")


def run(program, name, folder):
    here = TOP / "examples" / name
    hosts = [letter for letter in "ab" if (here / f"{letter}.in").is_file()]
    sources = [(here / f"{letter}.in").read_bytes().splitlines() for letter in hosts]
    wanted = [(here / f"{letter}.out").read_bytes().splitlines() for letter in hosts]
    with Service(program, folder, [f"{letter}.example" for letter in hosts]) as service:
        counts = [0] * len(hosts)
        for at, line in in_order(sources):
            stream = service.streams[at]
            stream.send(line)
            counts[at] += any(not is_notice(reply) and id_of(reply) == id_of(line) for reply in wanted[at])
            service.pump(lambda: not stream.unsent and len(stream.replies()) >= counts[at], 30, what=f"the reply to {line!r}")
        status, report = service.end()
        if (status, report) != (0, b""):
            raise Wrong(f"the program ended with {status}, and reported {report!r}")
        for at, stream in enumerate(service.streams):
            compare(stream.host, stream.lines(), wanted[at])
    if (here / "commands").is_file():
        run_commands(program, here / "commands", folder)


def run_mirror(program, name):
    here = TOP / "examples" / name
    words = [program, "mirror", "pubsub.example", "news", "bob@b.example", "3", here / "mirror.in"]
    ended = subprocess.run(words, timeout=60, stdout=subprocess.PIPE)
    if (ended.returncode, ended.stdout) != (0, (here / "mirror.out").read_bytes()):
        raise Wrong(f"the mirror ended with {ended.returncode}, and reported {ended.stdout!r}")
    lines = (here / "b.out").read_bytes().splitlines()
    if list(dict.fromkeys((here / "mirror.in").read_bytes().splitlines())) != lines:
        raise Wrong("mirror.in isn't b.out, with some lines again")
    items = json.loads(lines[-1])["c"][0]["c"][0]["c"]
    if [it | {"ns": PUBSUB} for it in items] != [json.loads(line) for line in ended.stdout.splitlines()]:
        raise Wrong("the mirror holds other items than the node")


def run_nodes(program, folder):
    with Service(program, folder, ["a.example"]) as service:
        service.streams[0].send(*(TOP / "examples" / "nodes.txt").read_bytes().splitlines())
        service.pump(lambda: service.streams[0].count == 2, 30, what="the replies")
        service.end()
        readme = (TOP / "README.md").read_bytes().splitlines()
        for line in service.streams[0].lines():
            if line not in readme:
                raise Wrong(f"README.md doesn't show {line!r}")


def main():
    program = pathlib.Path(sys.argv[1]).resolve()
    names = sys.argv[2:] or ["nodes.txt"] + sorted(path.name for path in (TOP / "examples").iterdir() if (path / "a.in").is_file())
    status = 0
    for name in names:
        with tempfile.TemporaryDirectory(prefix="examples-") as folder:
            try:
                run_nodes(program, folder) if name == "nodes.txt" else run(program, name, folder)
                if (TOP / "examples" / name / "mirror.in").is_file():
                    run_mirror(program, name)
                why = "as written"
            except (Wrong, Late, OSError) as error:
                why, status = f"{type(error).__name__}: {error}", 1
        print(f"{name}: {why}", flush=True)
    return status


if __name__ == "__main__":
    sys.exit(main())
