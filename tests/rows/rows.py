#!/usr/bin/env python3
"""Stores that begin with rows, written by hand, are opened and served, or refused at the row that isn't accepted.

Usage: rows.py PROGRAM

A compacted store begins with rows in the place of the entries that led to them: nodes, affiliations, subscriptions and
items, how many notices were handed to an address, and notices that aren't handed. Each is an entry of its own in a store
of version 2, the byte 5 and the print of a tree behind its length. Which rows are accepted behind which, and what is answered
over stores of rows, stands in tables, cases/*.txt; cases/rows.txt says how they are read.
"""
import pathlib
import re
import subprocess
import sys
import tempfile

HERE = pathlib.Path(__file__).resolve().parent
sys.path.insert(0, str(HERE.parent / "lines"))
import make
from forms import printed
from notation import Element, form, line_of, long_text, read
from stanzas import SERVICE, create, entry, item, notice, publish, published, result, retrieve

ANN, BOB = "ann@a.example/1", "bob@b.example"
NAMESPACE = "urn:pubsubd:base"
OF_NODE = {"name": "news", "service": SERVICE}
HEAD = b"PUBSUBJ2"


class Wrong(Exception):
    """Something else came than is wanted."""


def expect(what, came, wanted):
    if came != wanted:
        raise Wrong(f"{what}: came {came!r}, wanted {wanted!r}")


# ---- rows


def row(kind, attributes, *children):
    return line_of(Element(kind, NAMESPACE, attributes, list(children)))


def node(**config):
    settings = form("node_config", "form", printed("node_config", config))
    return row("node", {"creator": "ann@a.example", **OF_NODE}, settings)


def affiliation(name="news"):
    return row("affiliation", {"affiliation": "owner", "jid": "ann@a.example", "name": name, "service": SERVICE})


def subscription():
    return row("subscription", {"depth": "1", "jid": BOB, **OF_NODE, "subscription": "subscribed", "type": "items"})


def an_item(name="i1"):
    return row("item", {"id": name, **OF_NODE, "publisher": "ann@a.example"}, entry("hi"))


def counter(handed):
    return row("counter", {"handed": str(handed), "jid": BOB})


def waiting(line):
    return row("notice", {"jid": BOB}, line.decode())


ROWS = [node(), affiliation(), subscription(), an_item()]
TOLD = notice(BOB, 2, "news", "i1")

# ---- stores


def entry_of(line):
    return bytes([5]) + len(line).to_bytes(4, "big") + line


def boot():
    return bytes([0]) + len(SERVICE).to_bytes(2, "big") + SERVICE.encode()


def store_of(entries):
    """A store of one frame, and the offset of its last entry."""
    body = b"".join(entries)
    last = len(HEAD) + 5 + len(body) - len(entries[-1])
    return HEAD + bytes([1]) + len(body).to_bytes(4, "big") + body + bytes([0]), last


class Room:
    """A folder with a store, over which the program serves."""

    def __init__(self, program, folder):
        self.program, self.folder = program, pathlib.Path(folder)
        self.store = self.folder / "store"

    def run(self, lines):
        """Serves for each host its lines, and returns the status, the report, and what came of each."""
        words = [self.program, "serve", "--service", SERVICE, "--store", str(self.store)]
        for host, own in lines.items():
            (self.folder / f"{host}.in").write_bytes(b"".join(line + b"\n" for line in own))
            words += [host, f"{self.folder}/{host}.in", f"{self.folder}/{host}.out"]
        done = subprocess.run(words, capture_output=True, timeout=300, check=False)
        came = {host: (self.folder / f"{host}.out").read_bytes().splitlines() for host in lines}
        return done.returncode, done.stdout, came


def served(room):
    """What the rows say is there; the notice that waits is handed, and the next one has the number behind it."""
    room.store.write_bytes(store_of([entry_of(it) for it in [*ROWS, counter(1), waiting(TOLD)]])[0])
    expect("what waits", room.run({"b.example": []}), (0, b"", {"b.example": [TOLD]}))
    asked = [create(ANN, 1, "news"), retrieve(ANN, 2, "news"), publish(ANN, 3, "news", "i2")]
    status, report, came = room.run({"a.example": asked, "b.example": []})
    expect("the run", (status, report), (0, b""))
    first, *others = came["a.example"]
    if b'"n":"conflict"' not in first:
        raise Wrong(f"the node is there: came {first!r}")
    items = Element("items", None, {"node": "news"}, [item("i1", entry("hi"))])
    expect("replies", others, [result(ANN, 2, items), published(ANN, 3, "news", "i2")])
    expect("the next notice", came["b.example"], [notice(BOB, 3, "news", "i2")])


def refused(room):
    """Rows that no list of requests comes to: the store is damaged at them, and stays as it is."""
    reply = result(BOB, "n-1")
    cases = {
        "a node twice": [*ROWS, node()],
        "no such node": [*ROWS, affiliation("other")],
        "an item twice": [*ROWS, an_item()],
        "an item too much": [node(max_items="1"), an_item(), an_item("i2")],
        "a counter of nothing": [*ROWS, counter(0)],
        "a counter twice": [*ROWS, counter(1), counter(1)],
        "a notice of another number": [*ROWS, waiting(TOLD)],
        "a reply as a notice": [*ROWS, waiting(reply)],
        "no row": [*ROWS, row("other", {})],
    }
    for what, rows in cases.items():
        store, last = store_of([entry_of(it) for it in rows])
        refuses(room, what, store, last)
    for what in (node(), counter(1)):
        store, last = store_of([boot(), entry_of(what)])
        refuses(room, "a row behind a boot", store, last)


def refuses(room, what, store, at):
    room.store.write_bytes(store)
    expect(what, room.run({"a.example": []})[:2], (5, b"store damaged at %d\n" % at))
    expect(f"{what}: the store", room.store.read_bytes(), store)


# ---- the tables

NAMED = ("node", "affiliation", "subscription", "item", "link", "made")


def spelled(text):
    """The print of a row of a table."""
    (root,) = read(long_text(text))
    if root.name in NAMED:
        root.attributes = {**OF_NODE, **root.attributes}
    root.namespace = root.namespace or NAMESPACE
    return line_of(root)


def repeated(text):
    """A line of a table, as often as it says."""
    numbers = re.match(r"for (\d+)\.\.(\d+)(?: by (\d+))? ", text)
    words = re.match(r"for ((?:\S+ )+?)(?=taken |told )", text)
    if numbers:
        first, last, step = int(numbers[1]), int(numbers[2]), int(numbers[3] or 1)
        return [text[numbers.end() :].replace("$", str(it)) for it in range(first, last + 1, step)]
    if words:
        return [text[words.end() :].replace("$", it) for it in words[1].split()]
    return [text]


def cases():
    """The name of each case, and its steps: where each stands, its word and the text behind it."""
    found = []
    for path in sorted((HERE / "cases").glob("*.txt")):
        for at, line in enumerate(path.read_text().splitlines(), 1):
            word, _, rest = line.partition(" ")
            if word == "case":
                found.append((rest, []))
            elif word and word != "#":
                for step in repeated(line):
                    word, _, rest = step.partition(" ")
                    found[-1][1].append((f"{path.name}:{at}", word, rest))
    return found


def tags_in(store):
    """The first byte of each entry of a store."""
    at, found = len(HEAD), []
    while store[at] == 1:
        at, end = at + 5, at + 5 + int.from_bytes(store[at + 1 : at + 5], "big")
        while at < end:
            tag, sized = store[at], lambda here, width: width + int.from_bytes(store[here : here + width], "big")
            found.append(tag)
            at += 1
            if tag == 5:
                at += sized(at, 4)
                continue
            at += sized(at, 2)
            if tag in (1, 4):
                at += 8 * (2 if tag == 4 else 1)
                at += sized(at, 4)
    return found


def entries_in(store):
    return len(tags_in(store))


def changes_in(store):
    """How many of the entries are changes, with or without a moment."""
    return sum(tag in (1, 4) for tag in tags_in(store))


def is_notice(line):
    return b'"id":"n-' in line


def told(room, taken, asked):
    """What the program answers to these lines over the rows, in one run, and how many entries they make."""
    lines, answers, makes, heard = [], [], 0, []
    for where, text in asked:
        text = long_text(text)
        if text.startswith("> "):
            heard.append(make.notice(text, make.told_address)[2])
            continue
        number = len(lines) + 1
        text, _, answer = text.partition(" -> ")
        line, head = make.sent(number, text)
        lines.append(line)
        makes += answer.startswith("* ")
        answers.append((where, make.received(number, head, answer.removeprefix("* "))))
    room.store.write_bytes(store_of(taken)[0] if taken else b"")
    status, report, came = room.run({"a.example": lines})
    expect(asked[0][0], (status, report), (0, b""))
    replies = [line for line in came["a.example"] if not is_notice(line)]
    wanted = [(where, answer) for where, answer in answers if answer is not None]
    for (where, answer), reply in zip(wanted, replies):
        expect(where, reply, answer)
    expect(f"{asked[0][0]}: replies", len(replies), len(wanted))
    expect(f"{asked[0][0]}: entries", changes_in(room.store.read_bytes()), makes)
    if heard:
        expect(f"{asked[0][0]}: notices", [line for line in came["a.example"] if is_notice(line)], heard)


def come_back(room, taken, name):
    """The rows are compacted, and stand in the new store as they are."""
    old, _ = store_of(taken)
    room.store.write_bytes(old)
    new = room.folder / "new"
    new.unlink(missing_ok=True)
    done = subprocess.run([room.program, "compact", str(room.store), str(new)], capture_output=True, timeout=300, check=False)
    expect(f"{name}: compacting", (done.returncode, done.stdout), (0, b""))
    expect(f"{name}: the rows", new.read_bytes(), old)


def stands(room, where, word, text):
    """A store of these bytes: how many entries it has after a run, or where it is damaged."""
    number, _, told = text.partition(" ")
    store = make.bytes_of(told)
    if word == "damaged":
        refuses(room, where, store, int(number))
        return
    room.store.write_bytes(store)
    expect(where, room.run({"a.example": []})[:2], (0, b""))
    found = room.store.read_bytes()
    # The run adds a boot and the end of its host.
    expect(f"{where}: entries", entries_in(found), int(number) + 1)
    expect(f"{where}: the header", found[: len(HEAD)], HEAD)


def goes(room, name, steps):
    """Goes through a case, and counts its rows and its lines."""
    taken, asked = [], []
    for where, word, text in [*steps, ("", "again", "")]:
        if word in ("told", ">"):
            asked.append((where, text if word == "told" else f"> {text}"))
            continue
        if asked:
            told(room, taken, asked)
            asked = []
        if word == "taken":
            taken.append(entry_of(spelled(text)))
        elif word in ("opens", "damaged"):
            stands(room, where, word, text)
        elif word != "again":
            entry = entry_of(text.encode() if word == "raw" else spelled(text))
            refuses(room, f"{where}: {name}", *store_of([*taken, entry]))
    if taken:
        come_back(room, taken, name)
    return len(steps)


def main():
    program = str(pathlib.Path(sys.argv[1]).resolve())
    for check in (served, refused):
        with tempfile.TemporaryDirectory() as folder:
            check(Room(program, folder))
    with tempfile.TemporaryDirectory() as folder:
        count = sum(goes(Room(program, folder), name, steps) for name, steps in cases())
    print(f"rows: a store that begins with rows is served, eleven are refused at the row, and {count} rows and lines are taken, refused or answered as the tables say")


if __name__ == "__main__":
    main()
