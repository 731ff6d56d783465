#!/usr/bin/env python3
"""What an operator meets at `explain` and `readers`, which report on a store that isn't served.

Usage: run.py PROGRAM

Requests are served first, and the reports of the store that they leave are compared line by line: a node of the service, a personal one, one that never was, one that was made
twice; each access model, each publish model and each rule; two hundred drawn requests, beside a second reckoning of the access rules. Then the store itself: one of version 1, an empty
file, a damaged one, one that isn't there, one that is held, one that can't be read; a report that nobody takes; words that are no command.
"""
import os
import pathlib
import subprocess
import sys
import tempfile

TESTS = pathlib.Path(__file__).resolve().parent.parent
sys.path[:0] = [str(TESTS / "operating"), str(TESTS / "lines"), str(TESTS / "memory")]
from cases import compiled
from notation import NAMESPACES, Element
from operating import LINE, Wrong, refuses, reply_in, words
from stanzas import OWNER, SERVICE, asked, create, iq, publish

ANN, BOB = "ann@a.example/1", "bob@b.example"
OPEN = "read granted open, subscribe granted open, publish denied 11, own denied 11"
OWNS = ", ".join(f"{right} granted affiliation" for right in ("read", "subscribe", "publish", "own"))
LIST = "@node_config{access_model=whitelist}"
BOOTED = b"PUBSUBJ1\x01\0\0\0\x11\0\0\x0epubsub.example7"
HEADER = 8


def expect(what, came, wanted):
    if came != wanted:
        raise Wrong(f"{what}: came {came!r}, wanted {wanted!r}")


def command(program, *told, sink=subprocess.PIPE, more=()):
    """Runs a command, with more of the environment."""
    done = subprocess.run([program, *map(str, told)], stdout=sink, stderr=subprocess.PIPE, timeout=60, check=False, env={**os.environ, **dict(more)})
    return done.returncode, done.stdout, done.stderr


def reports(program, told, lines):
    expect(told, command(program, *told), (0, "".join(f"{line}\n" for line in lines).encode(), b""))


def serve(program, folder, lines):
    """Serves the lines, each of which must be answered by a result, and returns the store."""
    source, sink, store = folder / "in", folder / "sink", folder / "store"
    source.write_bytes(b"".join(line + b"\n" for line in lines))
    done = subprocess.run(words(program, store, source, sink), capture_output=True, timeout=60, check=False)
    expect("serve", (done.returncode, done.stdout), (0, b""))
    expect("results", sink.read_bytes().count(b'"type":"result"'), len(lines))
    return store


def affiliate(number, node, who, affiliation):
    entry = Element("affiliation", None, {"affiliation": affiliation, "jid": who}, [])
    return asked(ANN, number, "set", [Element("affiliations", None, {"node": node}, [entry])], OWNER)


def delete(number, node):
    return asked(ANN, number, "set", [Element("delete", None, {"node": node}, [])], OWNER)


def befriend(number, who):
    """A contact of ann's who gets her presence."""
    entry = Element("item", None, {"jid": who, "subscription": "from"}, [])
    return iq(ANN, number, "set", [Element("query", NAMESPACES["RO"], {}, [entry])], "ann@a.example")


def whitelisted(number, node):
    return asked(ANN, number, "set", f"create{{node={node}}} configure({LIST})")


def made(number, field, value):
    """The node w, with a field of its configuration."""
    return asked(ANN, number, "set", f"create{{node=w}} configure(@node_config{{{field}={value}}})")


def configured(number, field, value):
    return asked(ANN, number, "set", f"configure{{node=w}}(@node_config{{{field}={value}}})", OWNER)


def affiliated(number, affiliation):
    return affiliate(number, "w", BOB, affiliation)


def subscribed(number, who, state):
    return asked(ANN, number, "set", f"subscriptions{{node=w}}(subscription{{jid={who} subscription={state}}})", OWNER)


def contact(number, state, group):
    """Bob in the roster of ann."""
    return iq(ANN, number, "set", f'query:RO(item{{jid={BOB} subscription={state}}}(group("{group}")))', "ann@a.example")


# ---- nodes


def of_the_service(program, folder):
    """A whitelist on which bob is set and from which he is cast out; dan is on no row. A resource makes no difference."""
    store = serve(program, folder, [whitelisted(1, "w"), affiliate(2, "w", BOB, "member"), affiliate(3, "w", BOB, "outcast")])
    made = ["0 no node", "2 read denied 17, subscribe denied 17, publish denied 11, own denied 11"]
    member = "3 read granted affiliation, subscribe granted affiliation, publish denied 11, own denied 11"
    outcast = "4 read denied 11, subscribe denied 11, publish denied 11, own denied 11"
    for who in (BOB, f"{BOB}/desk"):
        reports(program, ("explain", store, who, SERVICE, "w"), [*made, member, outcast])
    reports(program, ("explain", store, "dan@b.example", SERVICE, "w"), made)
    reports(program, ("explain", store, "ann@a.example", SERVICE, "w"), ["0 no node", f"2 {OWNS}"])
    reports(program, ("readers", store, SERVICE, "w"), ["ann@a.example granted affiliation", f"{BOB} denied 11", "others denied 17"])


def of_an_account(program, folder):
    """A personal node: SERVICE is the account. Its account is known though no row says so, and whoever gets its presence reads."""
    store = serve(program, folder, [publish(ANN, 1, "urn:m", "m", target=None), befriend(2, BOB)])
    account = "ann@a.example"
    stranger = "2 read denied 18, subscribe denied 18, publish denied 11, own denied 11"
    friend = "3 read granted presence, subscribe granted presence, publish denied 11, own denied 11"
    reports(program, ("explain", store, BOB, account, "urn:m"), ["0 no node", stranger, friend])
    reports(program, ("explain", store, account, account, "urn:m"), ["0 no node", f"2 {OWNS}"])
    reports(program, ("readers", store, account, "urn:m"), [f"{account} granted affiliation", f"{BOB} granted presence", "others denied 18"])
    reports(program, ("readers", store, SERVICE, "urn:m"), ["no node"])


def that_never_was(program, folder):
    store = serve(program, folder, [create(ANN, 1, "news")])
    reports(program, ("explain", store, BOB, SERVICE, "nope"), ["0 no node"])
    reports(program, ("readers", store, SERVICE, "nope"), ["no node"])


def made_twice(program, folder):
    store = serve(program, folder, [whitelisted(1, "w"), delete(2, "w"), create(ANN, 3, "w")])
    denied = "read denied 17, subscribe denied 17, publish denied 11, own denied 11"
    reports(program, ("explain", store, BOB, SERVICE, "w"), ["0 no node", f"2 {denied}", "3 no node", f"4 {OPEN}"])
    reports(program, ("readers", store, SERVICE, "w"), ["ann@a.example granted affiliation", "others granted open"])


# Requests at the node w, an address, and what is reported of it and of those who read the node: a verdict by another rule is a line.
RULES = {
    "a whitelist, and a member": (
        [(made, "access_model", "whitelist"), (affiliated, "member")],
        BOB,
        [
            "0 no node",
            "2 read denied 17, subscribe denied 17, publish denied 11, own denied 11",
            "3 read granted affiliation, subscribe granted affiliation, publish denied 11, own denied 11",
        ],
        ["ann@a.example granted affiliation", f"{BOB} granted affiliation", "others denied 17"],
    ),
    "everyone reads and publishes, until one is cast out": (
        [(made, "access_model", "open"), (configured, "publish_model", "open"), (affiliated, "publisher"), (affiliated, "outcast")],
        BOB,
        [
            "0 no node",
            f"2 {OPEN}",
            "3 read granted open, subscribe granted open, publish granted publish-model, own denied 11",
            "4 read granted affiliation, subscribe granted affiliation, publish granted affiliation, own denied 11",
            "5 read denied 11, subscribe denied 11, publish denied 11, own denied 11",
        ],
        ["ann@a.example granted affiliation", f"{BOB} denied 11", "others granted open"],
    ),
    "the roster of the node's maker lets in, by a group and by presence": (
        [
            (made, "access_model", "roster"),
            (configured, "roster_groups_allowed", "g"),
            (contact, "both", "g"),
            (configured, "access_model", "presence"),
            (contact, "to", "g"),
        ],
        f"{BOB}/desk",
        [
            "0 no node",
            "2 read denied 19, subscribe denied 19, publish denied 11, own denied 11",
            "4 read granted group, subscribe granted group, publish denied 11, own denied 11",
            "5 read granted presence, subscribe granted presence, publish denied 11, own denied 11",
            "6 read denied 18, subscribe denied 18, publish denied 11, own denied 11",
        ],
        ["ann@a.example granted affiliation", f"{BOB} denied 18", "others denied 18"],
    ),
    "who is subscribed reads, whatever the resource, and publishes where subscribers do": (
        [(made, "access_model", "authorize"), (subscribed, f"{BOB}/desk", "subscribed"), (configured, "publish_model", "subscribers")],
        BOB,
        [
            "0 no node",
            "2 read denied 20, subscribe pending, publish denied 11, own denied 11",
            "3 read granted subscription, subscribe pending, publish denied 11, own denied 11",
            "4 read granted subscription, subscribe pending, publish granted publish-model, own denied 11",
        ],
        ["ann@a.example granted affiliation", f"{BOB} granted subscription", "others denied 20"],
    ),
}


def by_each_rule(program, folder):
    for case, (requests, who, explained, read) in RULES.items():
        (folder / "store").unlink(missing_ok=True)
        store = serve(program, folder, [request(number, *words) for number, (request, *words) in enumerate(requests, 1)])
        reports(program, ("explain", store, who, SERVICE, "w"), explained)
        reports(program, ("readers", store, SERVICE, "w"), read)


# ---- drawn requests, beside a second reckoning of the access rules (XEP-0060 §4.1, §4.5)

MODELS = ("open", "presence", "roster", "authorize", "whitelist")
PUBLISHING = ("publishers", "subscribers", "open")
AFFILIATIONS = ("owner", "publisher", "publish-only", "member", "none", "outcast")
STATES = ("none", "to", "from", "both")


class Seen:
    """What the requests have come to for bob at the node w, by the words of the protocol: its models, his affiliation, whether he is subscribed, his state in the roster of ann, his group."""

    def __init__(self):
        self.access, self.publish, self.affiliation, self.is_subscribed, self.contact, self.group = "roster", "publishers", "none", False, "", ""

    def stranger(self):
        """The same for an address that no row names."""
        other = Seen()
        other.access, other.publish = self.access, self.publish
        return other

    def is_named(self):
        return self.affiliation != "none" or self.is_subscribed or self.contact != ""

    def read(self):
        if self.affiliation in ("owner", "publisher", "member"):
            return "granted affiliation"
        if self.affiliation != "none":
            return "denied 11"
        by_model = {
            "open": (True, "open", ""),
            "presence": (self.contact in ("from", "both"), "presence", "18"),
            "roster": (self.group == "g", "group", "19"),
            "authorize": (self.is_subscribed, "subscription", "20"),
            "whitelist": (False, "", "17"),
        }
        granted, rule, condition = by_model[self.access]
        return f"granted {rule}" if granted else f"denied {condition}"

    def verdicts(self):
        subscribe = "pending" if self.affiliation == "none" and self.access == "authorize" else self.read()
        publish = "denied 11"
        if self.affiliation in ("owner", "publisher", "publish-only"):
            publish = "granted affiliation"
        elif self.affiliation != "outcast" and (self.publish == "open" or (self.publish == "subscribers" and self.is_subscribed)):
            publish = "granted publish-model"
        own = "granted affiliation" if self.affiliation == "owner" else "denied 11"
        return f"read {self.read()}, subscribe {subscribe}, publish {publish}, own {own}"


class Draws:
    """The numbers of a seed (Knuth's MMIX)."""

    def __init__(self, seed):
        self.state = seed

    def below(self, most):
        self.state = (self.state * 6364136223846793005 + 1442695040888963407) % 2**64
        return (self.state >> 33) % most

    def one_of(self, words):
        return words[self.below(len(words))]


def drawn_setting(draws, seen):
    """A request on the node itself, or none where it changes nothing."""
    if draws.below(2) == 0:
        before, seen.access = seen.access, draws.one_of(MODELS)
        return (configured, "access_model", seen.access) if seen.access != before else None
    before, seen.publish = seen.publish, draws.one_of(PUBLISHING)
    return (configured, "publish_model", seen.publish) if seen.publish != before else None


def drawn_row(draws, seen):
    """A request on what stands for bob."""
    kind = draws.below(3)
    if kind == 0:
        before, seen.affiliation = seen.affiliation, draws.one_of(AFFILIATIONS)
        return (affiliated, seen.affiliation) if seen.affiliation != before else None
    if kind == 1:
        seen.is_subscribed = not seen.is_subscribed
        return (subscribed, BOB, "subscribed" if seen.is_subscribed else "none")
    before = seen.contact, seen.group
    seen.contact, seen.group = draws.one_of(STATES), draws.one_of(("g", "h"))
    return (contact, seen.contact, seen.group) if (seen.contact, seen.group) != before else None


def of_drawn_requests(program, folder):
    draws, seen = Draws(20241201), Seen()
    requests = [(made, "access_model", "roster"), (configured, "roster_groups_allowed", "g")]
    lines = [(0, "no node"), (2, seen.verdicts())]
    for _ in range(200):
        request = (drawn_setting if draws.below(5) < 2 else drawn_row)(draws, seen)
        if request:
            requests.append(request)
            if seen.verdicts() != lines[-1][1]:
                # The first entry is the boot.
                lines.append((1 + len(requests), seen.verdicts()))
    if len(lines) <= 20:
        raise Wrong(f"{len(lines)} lines are too few")
    store = serve(program, folder, [request(number, *words) for number, (request, *words) in enumerate(requests, 1)])
    reports(program, ("explain", store, BOB, SERVICE, "w"), [f"{at} {words}" for at, words in lines])
    named = [f"{BOB} {seen.read()}"] if seen.is_named() else []
    reports(program, ("readers", store, SERVICE, "w"), ["ann@a.example granted affiliation", *named, f"others {seen.stranger().read()}"])


# ---- the store


def audits(store):
    return [("explain", store, BOB, SERVICE, "news"), ("readers", store, SERVICE, "news")]


def frame_of(*lines):
    """A frame with a boot, the changes of these lines, without moments, and the end of their host."""
    host = b"\0\x09a.example"
    changes = [b"\x01" + host + number.to_bytes(8, "big") + len(line).to_bytes(4, "big") + line for number, line in enumerate(lines, 1)]
    body = b"\0\0\x0epubsub.example" + b"".join(changes) + b"\x03" + host
    return b"\x01" + len(body).to_bytes(4, "big") + body + b"\0"


def upgraded(program, folder):
    """The header of version 1 becomes that of version 2, and no other byte changes. An empty file is begun. A store of version 2 stays as it is."""
    store = folder / "store"
    requests, _, _, read = RULES["a whitelist, and a member"]
    frame = frame_of(*(request(number, *words) for number, (request, *words) in enumerate(requests, 1)))
    for version in (b"1", b"2"):
        store.write_bytes(b"PUBSUBJ" + version + frame)
        reports(program, ("readers", store, SERVICE, "w"), read)
        expect("the store", store.read_bytes(), b"PUBSUBJ2" + frame)
    second = b"PUBSUBJ2" + BOOTED[HEADER:]
    for told, line in zip(audits(store), ("0 no node", "no node")):
        for before, after in ((BOOTED, second), (second, second), (b"", b"PUBSUBJ2\0")):
            store.write_bytes(before)
            reports(program, told, [line])
            expect(told, store.read_bytes(), after)


def damaged(program, folder):
    """A damaged store is named with the byte, and stays as it is. Nothing is accepted before the first boot."""
    store = folder / "store"
    gone_first = b"PUBSUBJ2\x01\0\0\0\x1d\x03\0\x09a.example\0\0\x0epubsub.example\0"
    for bad, at in ((BOOTED[:13] + b"\x09" + BOOTED[14:], 13), (gone_first, 13), (b"no store at all", 0)):
        for told in audits(store):
            store.write_bytes(bad)
            expect(told, command(program, *told), (5, f"store damaged at {at}\n".encode(), b""))
            expect(told, store.read_bytes(), bad)


def missing(program, folder):
    """A store that isn't there is an error, and none is made."""
    for told in audits(folder / "store"):
        refuses(told[0], command(program, *told), "store", folder / "store", b"No such file or directory")
    expect("what is there", list(folder.iterdir()), [])


def held(program, folder):
    """A store that is served can't be audited; once it is free it can."""
    store, pipe, sink = folder / "store", folder / "pipe", folder / "sink"
    os.mkfifo(pipe)
    with subprocess.Popen(words(program, store, pipe, sink)) as first:
        try:
            with open(pipe, "wb", buffering=0) as source:
                source.write(LINE)
                reply_in(sink)
                for told in audits(store):
                    refuses(told[0], command(program, *told), "store", store, b"")
            expect("the first program", first.wait(60), 0)
        finally:
            first.kill()
    explained, read = audits(store)
    reports(program, explained, ["0 no node", f"2 {OPEN}"])
    reports(program, read, ["ann@a.example granted affiliation", "others granted open"])


def unread(program, folder):
    """A store of which a call fails."""
    store, library = folder / "store", compiled(TESTS / "faults" / "fail.c", folder)
    for told in audits(store):
        for call in (1, 2):
            store.write_bytes(BOOTED)
            failing = {"LD_PRELOAD": library, "FAIL_FILE": str(store), "FAIL_CALL": str(call)}
            expect((call, *told), command(program, *told, more=failing)[:2], (4, b"store fault\n"))


def untaken(program, folder):
    """A report that nobody takes."""
    store = folder / "store"
    store.write_bytes(BOOTED)
    for told in audits(store):
        with open("/dev/full", "wb") as sink:
            expect(told, command(program, *told, sink=sink)[0], 3)


def no_commands(program, folder):
    """Words that are no command; no store is made."""
    store = folder / "store"
    explained, read = audits(store)
    wrong = [explained[:-1], (*explained, "more"), read[:-1], (*read, "more")]
    for told, place in ((explained, 3), (read, 2)):
        wrong += [(*told[:place], word, *told[place + 1 :]) for word in ("", f"{SERVICE}/1", "ann@a.example/1", "a b", "@a.example")]
    wrong += [(*explained[:2], word, *explained[3:]) for word in ("", "a b", "@a.example", "ann@a.example/")]
    wrong += [(*told[:-1], "") for told in (explained, read)] + [(told[0], "", *told[2:]) for told in (explained, read)]
    for told in wrong:
        code, report, _ = command(program, *told)
        expect(told, (code, report[:15]), (2, b"usage: pubsubd "))
    expect("what is there", list(folder.iterdir()), [])


PARTS = (of_the_service, of_an_account, that_never_was, made_twice, by_each_rule, of_drawn_requests, upgraded, damaged, missing, held, unread, untaken, no_commands)


def main():
    if len(sys.argv) != 2:
        sys.exit(__doc__.strip())
    program = str(pathlib.Path(sys.argv[1]).resolve())
    for part in PARTS:
        with tempfile.TemporaryDirectory() as folder:
            try:
                part(program, pathlib.Path(folder))
            except Wrong as wrong:
                print(f"FAIL {part.__name__}: {wrong}")
                sys.exit(1)
        print(f"ok   {part.__name__}")


if __name__ == "__main__":
    main()
