"""Data forms (XEP-0004) that pass through: labels and options for those who draw them, and values as the service reads them."""

from __future__ import annotations

from .names import AUTHORIZATION, DATA, NODE_CONFIG, OWNER, PUBLISH_OPTIONS, PUBSUB, SUBSCRIBE_OPTIONS
from .trees import Elem, elem

Options = tuple[tuple[str, str], ...]

LABELS = {
    "pubsub#title": "A short name of the node",
    "pubsub#deliver_notifications": "Tell subscribers of events",
    "pubsub#deliver_payloads": "Send the payloads with the events",
    "pubsub#notify_config": "Tell subscribers when the configuration changes",
    "pubsub#notify_delete": "Tell subscribers when the node is deleted",
    "pubsub#notify_retract": "Tell subscribers when an item is retracted",
    "pubsub#persist_items": "Keep the items",
    "pubsub#max_items": "How many items are kept (a number up to 1000, or max)",
    "pubsub#access_model": "Who may subscribe and read",
    "pubsub#publish_model": "Who may publish",
    "pubsub#roster_groups_allowed": "Groups of contacts that may read, under the access model roster",
    "pubsub#send_last_published_item": "When the last item is sent",
    "pubsub#presence_based_delivery": "Tell only those who are there",
    "pubsub#notification_type": "The type of the messages",
    "pubsub#max_payload_size": "The largest payload, in octets (131072 at most)",
    "pubsub#node_type": "A leaf has items, a collection has nodes",
    "pubsub#collection": "The collection that the node is in",
    "pubsub#subscription_type": "What is told of a collection",
    "pubsub#subscription_depth": "How deep into a collection",
    "pubsub#node": "The node",
    "pubsub#subscriber_jid": "Who asks to subscribe",
    "pubsub#allow": "Let this address subscribe?",
}

OPTIONS: dict[str, Options] = {
    "pubsub#access_model": (
        ("open", "Anyone"),
        ("presence", "Contacts that get the owner's presence"),
        ("roster", "Contacts of some groups"),
        ("authorize", "Those whom an owner approves"),
        ("whitelist", "Those on the node's list"),
    ),
    "pubsub#publish_model": (("publishers", "Publishers"), ("subscribers", "Subscribers"), ("open", "Anyone")),
    "pubsub#send_last_published_item": (
        ("never", "Never"),
        ("on_sub", "When somebody subscribes"),
        ("on_sub_and_presence", "When somebody subscribes or comes online"),
    ),
    "pubsub#notification_type": (("normal", "Normal"), ("headline", "Headline")),
    "pubsub#node_type": (("leaf", "Leaf"), ("collection", "Collection")),
    "pubsub#subscription_type": (("items", "The items of its nodes"), ("nodes", "The nodes themselves")),
    "pubsub#subscription_depth": (("1", "Its own nodes"), ("all", "All nodes below it")),
}

TITLES = {
    NODE_CONFIG: "Configuration of the node",
    SUBSCRIBE_OPTIONS: "Options of the subscription",
    AUTHORIZATION: "A request to subscribe",
}

# Fields of one value that the registry of XEP-0060 has as lists of texts: clients look for that type.
MULTI = ("pubsub#collection",)
# Fields whose value may be empty, and which clients then send without any value.
MAY_BE_EMPTY = ("pubsub#title", "pubsub#collection")
SUBMITTED = (NODE_CONFIG, PUBLISH_OPTIONS)


def form_type(form: Elem) -> str:
    for field in form.children("field"):
        if field.get("var") == "FORM_TYPE":
            value = field.child("value")
            return value.text() if value is not None else ""
    return ""


def forms_of(stanza: Elem) -> list[Elem]:
    """The forms at the places where publish-subscribe has them: below a message, or below a part of `pubsub`."""
    found = [kid for kid in stanza.children("x") if kid.ns == DATA]
    for pubsub in stanza.elements():
        if pubsub.name == "pubsub" and pubsub.ns in (PUBSUB, OWNER):
            for part in pubsub.elements():
                found += [kid for kid in part.children("x") if kid.ns == DATA]
    return found


def _draw_field(field: Elem) -> None:
    var = field.get("var")
    if var in LABELS:
        field.attrs["label"] = LABELS[var]
    if var in MULTI and field.get("type") == "text-single":
        field.attrs["type"] = "text-multi"
        field.kids = [kid for kid in field.kids if isinstance(kid, Elem) and kid.text()]
    for value, label in OPTIONS.get(var, ()):
        field.kids.append(elem("option", DATA, {"label": label}, elem("value", DATA, None, value)))


def draw(stanza: Elem) -> None:
    """Gives the service's forms what a client needs to draw them. It adds no field, and no value."""
    for form in forms_of(stanza):
        title = TITLES.get(form_type(form))
        if form.get("type") != "form" or title is None:
            continue
        for field in form.children("field"):
            _draw_field(field)
        form.kids.insert(0, elem("title", DATA, None, title))


def mend(stanza: Elem) -> None:
    """Writes an empty value where a client left the value of such a field out, since the service reads exactly one."""
    for form in forms_of(stanza):
        if form.get("type") == "submit" and form_type(form) in SUBMITTED:
            for field in form.children("field"):
                if field.get("var") in MAY_BE_EMPTY and field.child("value") is None:
                    field.kids.append(elem("value", DATA))
