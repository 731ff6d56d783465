"""Lists of deeds that a number deals: what people of two hosts do to nodes at the service host and at accounts, and the line of each deed."""
import pathlib
import random
import sys
from collections import namedtuple

sys.path.insert(0, str(pathlib.Path(__file__).resolve().parent.parent / "lines"))
from book import SERVICE, bare, ver_of
from notation import NAMESPACES, Element, form, line_of

EVERYONE = [f"{name}{end}" for name in ("ann@a.example", "bob@b.example", "cid@b.example", "dot@a.example") for end in ("", "/1", "/2")]
OWNERS = [who for who in EVERYONE if "/" not in who]
LEAVES = ("n1", "n2")
FIELDS = {
    "access_model": ("open", "open", "open", "presence", "roster", "authorize", "whitelist"),
    "deliver_notifications": ("0", "1", "1", "1"),
    "deliver_payloads": ("0", "1"),
    "notify_config": ("0", "1"),
    "notify_delete": ("0", "1"),
    "notify_retract": ("0", "1"),
    "persist_items": ("0", "1", "1"),
    "roster_groups_allowed": ("g", "h"),
    "send_last_published_item": ("never", "on_sub", "on_sub_and_presence"),
    "presence_based_delivery": ("0", "0", "1"),
    "notification_type": ("normal", "headline"),
    "max_items": ("1", "2", "max"),
}
# What features stand for which string; the hash of the last one isn't one that counts for others.
ONE, BOTH = ["n1+notify"], ["n1+notify", "n2+notify"]
FEATURES = [("sha-1", ver_of(ONE), ONE), ("sha-1", ver_of(BOTH), BOTH), ("md5", "AAAA", ["n2+notify"])]
ITEMS = ("i1", "i2", "i3")
AFFILIATIONS = ("member", "member", "publisher", "none", "owner", "outcast", "publish-only")

# What an address with a resource does, most often to a node.
Deed = namedtuple("Deed", "who node ask")


class Dealer:
    def __init__(self, seed):
        self.random = random.Random(seed)

    def deal(self, below):
        return self.random.randrange(below)

    def pick(self, words):
        return self.random.choice(words)

    def settings(self, many):
        """So many fields of a configuration."""
        return {name: self.pick(FIELDS[name]) for name in self.random.sample(sorted(FIELDS), many)}

    def options(self):
        return {"type": self.pick(("items", "nodes")), "depth": self.pick(("1", "all"))}

    def actor(self):
        """One of the people, most often Ann, who makes the nodes."""
        return self.pick(("bob@b.example/1", "cid@b.example/2", "dot@a.example/1")) if self.deal(8) == 0 else "ann@a.example/1"

    def resource(self):
        return self.pick(("ann@a.example/2", "bob@b.example/1", "bob@b.example/2", "cid@b.example/1", "dot@a.example/1"))

    def service(self):
        return self.pick((SERVICE, SERVICE, "ann@a.example", "ann@a.example", "cid@b.example"))

    def node(self):
        return self.service(), self.pick(("n1", "n1", "n2", "c1", "c2"))

    def leaf(self):
        return self.service(), self.pick(("n1", "n1", "n1", "n2"))

    def rows(self):
        return [(self.pick(EVERYONE), self.pick(("none", "pending", "subscribed", "subscribed"))) for _ in range(3)]

    def collected(self, fields):
        """The collection that a new node is put into, if there is one."""
        at = self.deal(3)
        return fields if at == 2 else {**fields, "collection": ("c1", "c2")[at]}

    # ---- deeds

    def joined(self):
        """A subscriber asks for one of its own addresses."""
        who, whom = self.pick((
            ("bob@b.example/1", "bob@b.example/1"), ("bob@b.example/2", "bob@b.example"), ("cid@b.example/1", "cid@b.example/2"),
            ("cid@b.example/1", "cid@b.example"), ("dot@a.example/1", "dot@a.example"), ("ann@a.example/1", "ann@a.example/2"),
        ))
        at = self.deal(6)
        ask = ("unsubscribe", whom) if at == 0 else ("set_options" if at == 1 else "subscribe", whom, self.options())
        return Deed(who, self.node(), ask)

    def ruled(self):
        """An owner says who may do what."""
        at = self.deal(5)
        if at == 0:
            ask = ("set_subs", self.rows())
        elif at == 1:
            ask = ("affiliate", self.pick(OWNERS), self.pick(AFFILIATIONS))
        elif at == 2:
            ask = ("approve", self.pick(EVERYONE), self.pick(("0", "1", "1")))
        else:
            ask = ("configure", self.settings(2))
        return Deed(self.actor(), self.node(), ask)

    def made(self):
        node, fields = self.node(), self.collected(self.settings(2))
        if node[1] not in LEAVES:
            fields["node_type"] = "collection"
        return Deed(self.actor(), node, ("create", fields))

    def published(self):
        """Something is published or taken back."""
        node, name = self.leaf(), self.pick(ITEMS)
        at = self.deal(9)
        if at < 2:
            ask = ("retract", name, "10"[at])
        elif at == 2:
            ask = ("purge",)
        else:
            ask = ("publish", name, self.collected(self.settings(1)) if at == 3 else {})
        return Deed("cid@b.example/1" if node[0] == "cid@b.example" else self.actor(), node, ask)

    def routed(self):
        """What comes of itself: a roster, a presence or an answer about capabilities."""
        who, (hash_of, ver, features), at = self.resource(), self.pick(FEATURES), self.deal(10)
        if at == 0:
            ask = ("hide",)
        elif at == 1:
            ask = ("show", None)
        elif at < 5:
            ask = ("show", (hash_of, ver))
        elif at < 8:
            ask = ("tell", ver, features)
        else:
            who = self.pick(("ann@a.example/1", "cid@b.example/1"))
            ask = ("contact", self.pick(OWNERS), self.pick(("none", "to", "from", "both", "both", "remove")), self.pick(("", "g")))
        return Deed(who, self.leaf(), ask)

    def next(self):
        at = self.deal(20)
        if at < 9:
            return self.published()
        if at < 12:
            return self.joined()
        if at < 15:
            return self.ruled()
        if at == 15:
            return self.made()
        if at == 16 and self.deal(3) == 0:
            return Deed(self.actor(), self.node(), ("delete",))
        return self.routed()

    def beginning(self):
        """Nodes on the service host and at Ann's, a leaf in a collection in a collection, each with subscribers; and contacts that are present."""
        for service in (SERVICE, "ann@a.example"):
            for name, kind, collection in (("c1", "collection", ""), ("c2", "collection", "c1"), ("n1", "leaf", "c2")):
                fields = {**self.settings(1), "node_type": kind, "collection": collection}
                yield Deed("ann@a.example/1", (service, name), ("create", fields))
                yield Deed("ann@a.example/1", (service, name), ("set_subs", self.rows()))
        for whom in ("bob@b.example", "cid@b.example", "dot@a.example"):
            contact = ("contact", whom, self.pick(("to", "from", "both", "both")), self.pick(("", "g")))
            yield Deed("ann@a.example/1", self.leaf(), contact)
            hash_of, ver, features = self.pick(FEATURES)
            yield Deed(f"{whom}/1", self.leaf(), ("show", (hash_of, ver)))
            yield Deed(f"{whom}/1", self.leaf(), ("tell", ver, features))


# ---- lines


def of_node(name, deed, *children, **attributes):
    return Element(name, None, {"node": deed.node[1], **attributes}, list(children))


def submitted(name, fields):
    return form(name, "submit", [(var, None, [value] if value else [""]) for var, value in fields.items()])


def within(name, kind, fields):
    """The form within the tree that asks by it, or nothing without fields."""
    return [Element(name, None, {}, [submitted(kind, fields)])] if fields else []


def options_of(fields):
    return {f"subscription_{name}": value for name, value in fields.items()}


def parts(deed):
    """The namespace of a request of a node, and what stands in it."""
    kind, *given = deed.ask
    rows = lambda name, pairs: [Element(name, None, {"jid": who, name: value}, []) for who, value in pairs]
    users, owners = NAMESPACES["P"], NAMESPACES["O"]
    if kind == "create":
        return users, [of_node("create", deed), *within("configure", "node_config", given[0])]
    if kind == "publish":
        item = Element("item", None, {"id": given[0]}, [Element("entry", "urn:t", {}, [])])
        return users, [of_node("publish", deed, item), *within("publish-options", "publish-options", given[1])]
    if kind == "retract":
        return users, [of_node("retract", deed, Element("item", None, {"id": given[0]}, []), notify=given[1])]
    if kind in ("purge", "delete"):
        return owners, [of_node(kind, deed)]
    if kind == "configure":
        return owners, [of_node("configure", deed, submitted("node_config", given[0]))]
    if kind == "affiliate":
        return owners, [of_node("affiliations", deed, *rows("affiliation", [given]))]
    if kind == "set_subs":
        return owners, [of_node("subscriptions", deed, *rows("subscription", given[0]))]
    if kind == "subscribe":
        return users, [of_node("subscribe", deed, jid=given[0]), *within("options", "subscribe_options", options_of(given[1]))]
    if kind == "unsubscribe":
        return users, [of_node("unsubscribe", deed, jid=given[0])]
    return users, [of_node("options", deed, submitted("subscribe_options", options_of(given[1])), jid=given[0])]


def line(deed):
    """The line by which it is done."""
    kind, *given = deed.ask
    name, kind_of, to = "iq", "set", deed.node[0]
    if kind == "approve":
        fields = {"node": deed.node[1], "subscriber_jid": given[0], "allow": given[1]}
        name, kind_of, children = "message", None, [submitted("subscribe_authorization", fields)]
    elif kind == "contact":
        whom, state, group = given
        groups = [Element("group", None, {}, [group])] if group else []
        item = Element("item", None, {"jid": whom, "subscription": state}, groups)
        to, children = bare(deed.who), [Element("query", NAMESPACES["RO"], {}, [item])]
    elif kind in ("show", "hide"):
        name, kind_of, to = "presence", "unavailable" if kind == "hide" else None, SERVICE
        caps = given[0] if given else None
        children = [Element("c", NAMESPACES["K"], {"hash": caps[0], "node": "urn:c", "ver": caps[1]}, [])] if caps else []
    elif kind == "tell":
        kind_of, to = "result", SERVICE
        features = [Element("feature", None, {"var": it}, []) for it in given[1]]
        children = [Element("query", NAMESPACES["DI"], {"node": f"urn:c#{given[0]}"}, features)]
    else:
        namespace, inside = parts(deed)
        children = [Element("pubsub", namespace, {}, inside)]
    attributes = {"from": deed.who, "id": "1", "to": to, **({"type": kind_of} if kind_of else {})}
    return line_of(Element(name, None, attributes, children))
