"""The replies of the service: results, and errors with their conditions (RFC 6120 §8.3, XEP-0060 §3)."""
from notation import Element, NAMESPACES

# The condition, the special condition of XEP-0060 if there is one, and the type of the error.
CONDITIONS = {
    1: ("bad-request", None, "modify"),
    2: ("bad-request", "invalid-jid", "modify"),
    3: ("bad-request", "nodeid-required", "modify"),
    4: ("bad-request", "item-required", "modify"),
    5: ("bad-request", "payload-required", "modify"),
    6: ("bad-request", "invalid-payload", "modify"),
    7: ("bad-request", "item-forbidden", "modify"),
    8: ("conflict", None, "cancel"),
    9: ("conflict", "precondition-not-met", "cancel"),
    10: ("feature-not-implemented", "unsupported", "cancel"),
    11: ("forbidden", None, "auth"),
    12: ("item-not-found", None, "cancel"),
    13: ("jid-malformed", None, "modify"),
    14: ("not-acceptable", None, "modify"),
    15: ("not-acceptable", "invalid-subid", "modify"),
    16: ("not-acceptable", "payload-too-big", "modify"),
    17: ("not-allowed", "closed-node", "cancel"),
    18: ("not-authorized", "presence-subscription-required", "auth"),
    19: ("not-authorized", "not-in-roster-group", "auth"),
    20: ("not-authorized", "not-subscribed", "auth"),
    21: ("not-authorized", "pending-subscription", "auth"),
    22: ("unexpected-request", "not-subscribed", "cancel"),
    23: ("policy-violation", "too-many-subscriptions", "wait"),
    24: ("resource-constraint", None, "wait"),
    25: ("service-unavailable", None, "cancel"),
    26: ("feature-not-implemented", None, "cancel"),
    27: ("not-acceptable", "nodeid-required", "modify"),
    28: ("bad-request", "invalid-options", "modify"),
}


def error_of(number, feature):
    """The child `error` of a denial by that condition."""
    condition, special, kind = CONDITIONS[number]
    children = [Element(condition, NAMESPACES["S"], {}, [])]
    if special is not None:
        attributes = {"feature": feature} if special == "unsupported" else {}
        children.append(Element(special, NAMESPACES["R"], attributes, []))
    return Element("error", None, {"type": kind}, children)


def answer(head, kind, children):
    """A reply of that type to a stanza: from its target, to its sender, with its id."""
    attributes = {"from": head["target"], "to": head["sender"], "type": kind}
    if head["id"]:
        attributes["id"] = head["id"]
    return Element(head["name"], None, attributes, children)


def refused(number, why):
    """The tree that refuses the line of that number."""
    return Element("refused", "urn:pubsubd:line", {"line": str(number), "why": why}, [])
