"""The lines of the measurements, as phases: a name, and its lines."""
import pathlib
import sys

sys.path.insert(0, str(pathlib.Path(__file__).resolve().parents[2] / "tests" / "lines"))
import stanzas

ADDRESS = "user%d@a.example"
OWNER = ADDRESS % 0
ROWS = 1000


def text(line):
    return line.decode() + "\n"


def line(who, number, kind, parts, target=stanzas.SERVICE):
    return text(stanzas.asked(who + "/1", number, kind, parts, target=target))


def owning(who, number, parts):
    """Of what only an owner may do (XEP-0060 §8)."""
    return text(stanzas.asked(who + "/1", number, "set", parts, stanzas.OWNER))


def publishing_to(who, number, node, name, words, target=stanzas.SERVICE):
    return text(stanzas.publish(who + "/1", number, node, name, words, target))


def create(k):
    """Each makes another node, by senders who make at most 5,000 each."""
    return line(ADDRESS % (k // 5000), k, "set", "create{node=node-%d}" % k)


def publish(k, nodes):
    """To the nodes in turn, each by its owner."""
    node = k % nodes
    return publishing_to(ADDRESS % (node // 5000), k, "node-%d" % node, "item-%d" % k, str(k))


def retrieve(k, nodes):
    return line("reader@a.example", k, "get", "items{node=node-%d}" % (k % nodes))


def subscribe(k, nodes):
    """Each by another address."""
    who = "reader%d@a.example" % k
    return line(who, k, "set", "subscribe{jid=%s node=node-%d}" % (who, k % nodes))


def subscriptions(k):
    """What a reader is subscribed to."""
    return line("reader%d@a.example" % k, k, "get", "subscriptions")


def unsubscribe(k, nodes):
    who = "reader%d@a.example" % k
    return line(who, k, "set", "unsubscribe{jid=%s node=node-%d}" % (who, k % nodes))


def publish_to(node, k):
    return publishing_to(ADDRESS % (node // 5000), k, "node-%d" % node, "more-%d" % k, str(k))


def retract(node, k):
    """The item of `publish_to`."""
    return line(ADDRESS % (node // 5000), k, "set", "retract{node=node-%d}(item{id=more-%d})" % (node, k))


def create_by(who, k):
    return line("%s%d@a.example" % (who, k % 10), k, "set", "create{node=%s-%d}" % (who, k))


def delete_by(who, k):
    return owning("%s%d@a.example" % (who, k % 10), k, "delete{node=%s-%d}" % (who, k))


def affiliate(k, nodes, affiliation="member"):
    """Each makes another address a member."""
    node = k % nodes
    row = "affiliation{affiliation=%s jid=reader%d@a.example}" % (affiliation, k)
    return owning(ADDRESS % (node // 5000), k, "affiliations{node=node-%d}(%s)" % (node, row))


def subscribing(node, k, name, numbers, host="a.example"):
    """So many addresses of that host are subscribed to the owner's node by a line."""
    rows = " ".join("subscription{jid=%s%d@%s subscription=subscribed}" % (name, n, host) for n in numbers)
    return owning(OWNER, k, "subscriptions{node=%s}(%s)" % (node, rows))


def subscribers(k, last):
    """Of the subscribers of the first node up to the last, a line's rows."""
    return subscribing("node-0", k, "sub", range(k * ROWS, min((k + 1) * ROWS, last)))


def affiliations(rows):
    return owning(OWNER, 0, "affiliations{node=node-0}(%s)" % " ".join(rows))


def members(k, last):
    """Of the members of the first node up to the last, a line's rows."""
    row = "affiliation{affiliation=member jid=m%d@a.example}"
    return affiliations([row % n for n in range(k * ROWS, min((k + 1) * ROWS, last))])


def nobody(count):
    """A line that takes the affiliations of so many addresses away, which have none."""
    row = "affiliation{affiliation=none jid=%x}"
    return affiliations([row % (n + 0x1000) for n in range(count)])


def phase(name, count, make):
    return name, [make(k) for k in range(count)]


def creating(lines):
    return [phase("create", lines, create)]


def publishing(lines, nodes):
    return [
        phase("create", nodes, create),
        phase("publish", lines, lambda k: publish(k, nodes)),
        phase("retrieve", nodes, lambda k: retrieve(k, nodes)),
    ]


def asking(requests, nodes, subscriptions):
    """So many requests of each kind, over so many nodes, of which the first has so many subscriptions before."""
    setting = -(-subscriptions // ROWS)
    phases = [
        phase("create", nodes, create),
        phase("set", setting, lambda k: subscribers(k, subscriptions)),
        phase("subscribe", requests, lambda k: subscribe(k, nodes)),
        phase("publish", requests, lambda k: publish(k, nodes)),
        phase("retrieve", requests, lambda k: retrieve(k, nodes)),
        phase("affiliate", requests, lambda k: affiliate(k, nodes)),
    ]
    return [(name, lines) for name, lines in phases if lines]
