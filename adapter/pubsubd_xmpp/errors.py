"""Replies that the adapter makes itself, and the texts that tell a person what an error asks of him."""

from __future__ import annotations

from .names import CLIENT, ERRORS, STANZAS
from .trees import Elem, elem

# By the condition, or by the special condition of publish-subscribe where there is one.
TEXTS = {
    "bad-request": "The request isn't written as this service reads it.",
    "invalid-jid": "Subscribe your own address, bare or with your resource.",
    "nodeid-required": "Name the node in the request's attribute 'node'.",
    "item-required": "Send one item, with an id where it is to be retracted.",
    "payload-required": "The node wants a payload in the item.",
    "invalid-payload": "An item has one payload element, not several.",
    "item-forbidden": "The node keeps and delivers no items: publish without one.",
    "conflict": "A node of that name is there already: choose another name, or use the one that stands.",
    "precondition-not-met": "The node's configuration isn't the one that your publish options ask for: configure the node, or publish without the options.",
    "feature-not-implemented": "This service doesn't do that.",
    "unsupported": "A collection has no items: use one of its nodes.",
    "forbidden": "Your affiliation with the node doesn't allow that: ask its owner for another.",
    "item-not-found": "There is no such node or item here: look at its name, or make it first.",
    "jid-malformed": "That is no address that this service knows: addresses are ASCII.",
    "not-acceptable": "A value isn't one that its field can have, or the change isn't one that can be made.",
    "invalid-subid": "There are no subscription ids here: leave the id out.",
    "payload-too-big": "The payload is larger than the node's 'pubsub#max_payload_size': 65536 octets unless configured, and 131072 at most, "
    "counted as the service keeps it, which is somewhat more than its XML. Publish a smaller one, or let the owner configure the node.",
    "closed-node": "Only those on the node's list may read it: ask its owner to be put there.",
    "presence-subscription-required": "The node's owner doesn't share presence with you: ask for it by your contact list.",
    "not-in-roster-group": "Its owner shows this node to some groups of contacts alone, and you are in none of them.",
    "not-subscribed": "You aren't subscribed to the node: subscribe first.",
    "pending-subscription": "Your subscription waits for the owner's approval.",
    "too-many-subscriptions": "The node has as many subscriptions as it may have.",
    "resource-constraint": "There is no room for more just now, of your nodes or contacts or in the store: delete what isn't needed, or try again later.",
    "service-unavailable": "There is no such service at that address.",
    "invalid-options": "The subscription's options aren't a form that this service reads.",
}

# What the service says of a line, as the condition, its type and the text that the sender is answered by.
REFUSALS = {
    "too-long": ("not-acceptable", "modify", "The request is larger than 262144 octets, and can't be taken: send less at once."),
    "not-json": ("bad-request", "modify", "The request couldn't be written for the service."),
    "not-a-tree": ("bad-request", "modify", "The request couldn't be written for the service."),
    "too-deep": ("not-acceptable", "modify", "The request has more than 32 levels of elements."),
    "bad-address": ("not-acceptable", "modify", "Your address isn't one that this service can serve: it takes ASCII letters, digits and signs alone."),
    "foreign-from": ("service-unavailable", "cancel", "Accounts of your server aren't served here."),
    "bad-stanza": ("bad-request", "modify", "The request has no id, or isn't one element."),
}

BEYOND_ASCII = "Your client's resource name has characters beyond ASCII, and this service can't answer it: give it a plain name in the client's settings."
FOREIGN = "Accounts of other servers aren't served here."
BUSY = "More requests are open than this service takes at once: try again in a moment."
ENDED = "The service was started anew while your request was open. It may have taken effect or not: look, and try again."
STOPPING = "The service is being stopped: try again later."
NO_ROSTER = "The account's contacts couldn't be had just now, so what you may do couldn't be judged: try again."


def error(head: Elem, condition: str, kind: str, text: str, service: str) -> Elem:
    """An error to the sender of `head`, from whom it was sent to."""
    back = {"from": head.get("to") or service, "to": head.get("from"), "type": "error"}
    if "id" in head.attrs:
        back["id"] = head.attrs["id"]
    words = elem("text", STANZAS, {"xml:lang": "en"}, text)
    return Elem(head.name, CLIENT, back, [elem("error", CLIENT, {"type": kind}, elem(condition, STANZAS), words)])


def result(head: Elem, *kids: Elem) -> Elem:
    """A result to the sender of `head`, from whom it was sent to."""
    return elem("iq", CLIENT, {"from": head.get("to"), "to": head.get("from"), "id": head.get("id"), "type": "result"}, *kids)


def explain(reply: Elem) -> None:
    """Puts the text behind the condition of an error that the service answered."""
    said = reply.child("error")
    if said is None or said.child("text", STANZAS) is not None:
        return
    names = [kid.name for kid in said.elements() if kid.ns in (ERRORS, STANZAS)]
    text = next((TEXTS[name] for name in reversed(names) if name in TEXTS), None)
    if text is not None:
        said.kids.insert(1, elem("text", STANZAS, {"xml:lang": "en"}, text))
