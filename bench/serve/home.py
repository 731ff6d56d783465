"""What a request at accounts costs where others have many rows, beside what it costs where they have few: rosters, personal nodes, presences,
capabilities, collections, discovery.

Usage: home.py PROGRAM FOLDER. As many.py, with 10 accounts or ACCOUNTS (10000) of them, each with a personal node that holds an item, a contact
and a resource whose capabilities are verified, and a tenth of them with a node in a collection. Then each gets REQUESTS (1000) of each kind. A line without a
reply is sent in one piece with a request that has one.
"""
import base64
import hashlib
import os
import pathlib
import sys

import corpus
import many
import measure
import stanzas
from notation import Element, line_of, read

ACCOUNTS = measure.numbers("ACCOUNTS", "10000")[0]
REQUESTS = many.REQUESTS
INFO = "http://jabber.org/protocol/disco#info"
ITEMS = "http://jabber.org/protocol/disco#items"


def account(k):
    return "home%d@a.example" % k


def asked_of(k, kind, parts, target):
    return corpus.text(stanzas.iq(account(k) + "/1", k, kind, parts, target))


def stanza(parts):
    """A stanza that is no iq of `pubsub`."""
    return corpus.text(line_of(read(parts)[0]))


def present(who, ver):
    return stanza("presence{from=%s/1}(c:K{hash=sha-1 node=urn:n ver=%s})" % (who, ver))


def absent(who):
    return stanza("presence{from=%s/1 type=unavailable}" % who)


def publish(k, node):
    return corpus.publishing_to(account(k), k, node, "m", "", account(k))


def contact(k, who, state):
    return asked_of(k, "set", "query:RO(item{jid=%s subscription=%s})" % (who, state), None)


def discover(k, target, namespace, node=""):
    return asked_of(k, "get", [Element("query", namespace, {"node": node} if node else {}, [])], target)


def features(count, kind=0):
    """The features of a kind of client, in the order of their octets."""
    return ["urn:f%03d:%d+notify" % (at, kind) for at in range(count)]


def ver(count, kind=0):
    """The hash of an answer with these features alone (XEP-0115 section 5)."""
    return base64.b64encode(hashlib.sha1("".join(it + "<" for it in features(count, kind)).encode()).digest()).decode()


def answer(who, count, kind=0):
    told = " ".join("feature{var=%s}" % it for it in features(count, kind))
    return corpus.text(stanzas.iq(who + "/1", "n-1", "result", "query:DI{node=urn:n#%s}(%s)" % (ver(count, kind), told)))


def client(k):
    """A new resource of a kind of client that nobody had, which is present and answers with 256 features."""
    who = "client%d@a.example" % k
    return present(who, ver(256, k + 1)) + answer(who, 256, k + 1)


def silent(lines):
    """Lines without replies, and one request behind them."""
    return ["".join(lines) + discover(0, "pubsub.example", INFO)]


def kept_in(collection, k):
    field = ("node_type", "collection") if k is None else ("collection", collection)
    node = collection if k is None else "%s-%d" % (collection, k)
    return corpus.line(account(0), 0, "set", "create{node=%s} configure(@node_config{%s=%s})" % (node, *field))


def rows_before(accounts):
    first = [corpus.phase("", accounts, lambda k: publish(k, "urn:t")), corpus.phase("", accounts, lambda k: contact(k, account(k + 1), "both"))]
    first.append(("", silent([present(account(k), ver(3)) for k in range(accounts)] + [answer(account(0), 3)])))
    return first + [("", [kept_in("shelf", None)]), corpus.phase("", accounts // 10, lambda k: kept_in("shelf", k))]


def asked(accounts):
    who = lambda k: k % accounts
    some = range(REQUESTS)
    return [
        corpus.phase("contact set", REQUESTS, lambda k: contact(who(k), "friend%d@a.example" % k, "both")),
        corpus.phase("contact removed", REQUESTS, lambda k: contact(who(k), "friend%d@a.example" % k, "remove")),
        corpus.phase("node made", REQUESTS, lambda k: publish(who(k), "urn:n%d" % k)),
        corpus.phase("publish", REQUESTS, lambda k: publish(who(k), "urn:t")),
        corpus.phase("retrieve", REQUESTS, lambda k: corpus.line(account(who(k)), k, "get", "items{node=urn:t}", account(who(k)))),
        ("present", silent([present("new%d@a.example" % k, "AAAA") for k in some])),
        ("absent", silent([absent("new%d@a.example" % k) for k in some])),
        ("present, known", silent([present("new%d@a.example" % k, ver(3)) for k in some])),
        ("answer, 256", silent([client(k) for k in range(REQUESTS // 10)])),
        corpus.phase("info", REQUESTS, lambda k: discover(k, "pubsub.example", INFO, "shelf")),
        corpus.phase("nodes", REQUESTS, lambda k: discover(who(k), account(who(k)), ITEMS)),
        corpus.phase("node's items", REQUESTS, lambda k: discover(who(k), account(who(k)), ITEMS, "urn:t")),
        corpus.phase("in a collection", REQUESTS, lambda k: kept_in("shelf", accounts + k)),
    ]


def main():
    program, folder = pathlib.Path(sys.argv[1]), pathlib.Path(sys.argv[2])
    os.mkfifo(folder / "in")
    os.mkfifo(folder / "out")
    many.kinds(program, folder, [(size, rows_before(accounts), asked(accounts)) for size, accounts in [("few", 10), ("many", ACCOUNTS)]])


if __name__ == "__main__":
    main()
