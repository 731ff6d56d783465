"""Stanzas as lines, for all that sends some or knows what comes back: each is built as a tree of the notation, and printed as any other.

Where `parts` are asked for, they are elements or a text in the notation.
"""
import json

from notation import NAMESPACES, PUBSUB, Element, line_of, read

SERVICE = "pubsub.example"
CONFIG = PUBSUB + "#node_config"
OWNER = NAMESPACES["O"]


def elements(parts):
    return read(parts) if isinstance(parts, str) else list(parts)


def iq(sender, number, kind, parts, target=SERVICE):
    """The line of an iq with these children; without a target it is to nobody."""
    attributes = {"from": sender, "id": str(number), "to": target, "type": kind}
    return line_of(Element("iq", None, {name: value for name, value in attributes.items() if value is not None}, elements(parts)))


def asked(sender, number, kind, parts, namespace=PUBSUB, target=SERVICE):
    """The line of an iq with `pubsub` and these children."""
    return iq(sender, number, kind, [Element("pubsub", namespace, {}, elements(parts))], target)


def bare(sender):
    return sender.partition("/")[0]


# ---- requests


def create(sender, number, node):
    return asked(sender, number, "set", [Element("create", None, {"node": node}, [])])


def subscribe(sender, number, node):
    return asked(sender, number, "set", [Element("subscribe", None, {"jid": bare(sender), "node": node}, [])])


def entry(text):
    """A payload: an entry with that text, or an empty one."""
    return Element("entry", "urn:t", {}, [text] if text else [])


def item(number, *payload):
    return Element("item", None, {"id": number}, list(payload))


def publish(sender, number, node, name, text="hi", target=SERVICE):
    kids = [item(name, entry(text))]
    return asked(sender, number, "set", [Element("publish", None, {"node": node}, kids)], target=target)


def retrieve(sender, number, node):
    return asked(sender, number, "get", [Element("items", None, {"node": node}, [])])


# ---- replies and notices


def result(sender, number, *parts):
    """The line of a result."""
    children = [Element("pubsub", PUBSUB, {}, list(parts))] if parts else []
    attributes = {"from": SERVICE, "id": str(number), "to": sender, "type": "result"}
    return line_of(Element("iq", None, attributes, children))


def subscribed(sender, number, node):
    attributes = {"jid": bare(sender), "node": node, "subscription": "subscribed"}
    return result(sender, number, Element("subscription", None, attributes, []))


def published(sender, number, node, name):
    return result(sender, number, Element("publish", None, {"node": node}, [item(name)]))


def notice(to, number, node, name, text="hi"):
    """The line that tells of an item that was published."""
    event = Element("event", NAMESPACES["E"], {}, [Element("items", None, {"node": node}, [item(name, entry(text))])])
    attributes = {"from": SERVICE, "id": f"n-{number}", "to": to, "type": "headline"}
    return line_of(Element("message", None, attributes, [event]))


def is_notice(line):
    """Whether the service sends it of its own accord: its id is `n-` and a number, which no id in these tests is."""
    return json.loads(line)["a"].get("id", "").startswith("n-")
