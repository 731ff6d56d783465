"""What a line must be answered, by tables that stand here and in docs/router.md and from nothing that the program printed."""
import pathlib
import sys

sys.path.insert(0, str(pathlib.Path(__file__).resolve().parent.parent / "lines"))
from notation import NAMESPACES, Element, line_of

HOST, SERVICE = "a.example", "pubsub.example"
STANZAS, ERRORS = NAMESPACES["S"], NAMESPACES["R"]

# the conditions that these lines get: name, special condition, type
CONDITIONS = {
    1: ("bad-request", "", "modify"),
    2: ("bad-request", "invalid-jid", "modify"),
    3: ("bad-request", "nodeid-required", "modify"),
    11: ("forbidden", "", "auth"),
    13: ("jid-malformed", "", "modify"),
    14: ("not-acceptable", "", "modify"),
    25: ("service-unavailable", "", "cancel"),
    26: ("feature-not-implemented", "", "cancel"),
    27: ("not-acceptable", "nodeid-required", "modify"),
}


# ---- trees


def tree(name, ns=None, attrs=None, *kids):
    """A tree; without a namespace it is in its parent's."""
    return Element(name, ns, dict(attrs or {}), list(kids))


# ---- addresses


def labels(host):
    return all(label and all(c.isascii() and (c.isalnum() or c in "-_") for c in label) for label in host.split("."))


def address(spelled):
    """The address that a text spells, as (local, host, resource), or None."""
    front, slash, resource = spelled.partition("/")
    local, at, host = front.partition("@")
    if not at:
        local, host = "", front
    if (slash and not resource) or (at and not local) or not labels(host):
        return None
    if any(not 0x21 <= ord(c) <= 0x7E or c in "\"&'/:<>@" for c in local):
        return None
    if any(not 0x20 <= ord(c) <= 0x7E for c in resource):
        return None
    if any(len(part.encode()) > 1023 for part in (local, host, resource)):
        return None
    return (local.lower(), host.lower(), resource)


def printed(who):
    local, host, resource = who
    return (local + "@" if local else "") + host + ("/" + resource if resource else "")


def bare(who):
    return (who[0], who[1], "")


# ---- what is written


class Out:
    def __init__(self):
        self.lines, self.replies = [], []

    def put(self, line, reply=None):
        assert b"\n" not in line
        self.lines.append(line)
        if reply is not None:
            self.replies.append(line_of(reply))

    def silent(self, line):
        self.put(line)

    def refuse(self, line, why):
        number = str(len(self.lines) + 1)
        self.put(line, tree("refused", "urn:pubsubd:line", {"line": number, "why": why}))

    def deny(self, t, number, line=None):
        """The stanza is denied: the reply is from its target, or from the service host where that is no address."""
        name, extra, kind = CONDITIONS[number]
        attrs = t.attributes
        sender = address(attrs["from"])
        to = attrs.get("to", "")
        target = (address(to) or ("", SERVICE, "")) if to else bare(sender)
        head = {"from": printed(target), "to": printed(sender), "type": "error"}
        if attrs.get("id", ""):
            head["id"] = attrs["id"]
        parts = [tree(name, STANZAS)] + ([tree(extra, ERRORS)] if extra else [])
        self.put(line or line_of(t), tree(t.name, None, head, tree("error", None, {"type": kind}, *parts)))
