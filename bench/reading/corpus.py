"""Realistic lines for the stream of a.example: one create with a form in five, and publishes of payloads of 200 to 4,000 bytes.

Usage: corpus.py LINES. The lines are the same in each run."""
import json
import random
import sys

P = "http://jabber.org/protocol/pubsub"
WORDS = (
    "the moon rose over a quiet harbour and every lamp along the pier went out one after another while the keeper wrote down what he had seen "
    "“in plain words” – with a date, a place and a name \"as it was told\" — naïve, perhaps, but café talk travels fast"
).split(" ")
FIELDS = [
    ("title", "text-single"),
    ("access_model", "list-single"),
    ("publish_model", "list-single"),
    ("max_items", "text-single"),
    ("persist_items", "boolean"),
    ("deliver_payloads", "boolean"),
    ("notify_retract", "boolean"),
    ("send_last_published_item", "list-single"),
    ("max_payload_size", "text-single"),
]
VALUES = {
    "access_model": ["open", "whitelist", "authorize"],
    "publish_model": ["publishers", "open"],
    "max_items": ["1", "10", "250", "max"],
    "send_last_published_item": ["never", "on_sub"],
    "max_payload_size": ["4096", "65536"],
}
some = random.Random(163)


def element(name, kids, **more):
    return {**more, **({"c": kids} if kids else {}), "n": name}


def field(var, kind, value):
    return element("field", [element("value", [value] if value else [])], a={"type": kind, "var": var})


def words(size):
    text = ""
    while len(text.encode()) < size:
        text += some.choice(WORDS) + " "
    return text


def form():
    fields = [field("FORM_TYPE", "hidden", P + "#node_config")]
    for var, kind in some.sample(FIELDS, some.randint(3, len(FIELDS))):
        value = words(20) if var == "title" else some.choice(VALUES.get(var, ["0", "1"]))
        fields.append(field("pubsub#" + var, kind, value))
    return element("x", fields, a={"type": "submit"}, ns="jabber:x:data")


def create(k):
    return [element("create", [], a={"node": "node-%d" % k}), element("configure", [form()])]


def payload(size):
    """An entry of about that many bytes."""
    kids = [
        element("title", [words(30)]),
        element("id", ["tag:a.example,2026:entry-%d" % some.randint(1, 10**9)]),
        element("published", ["2026-11-27T17:%02d:00Z" % some.randint(0, 59)]),
        element("link", [], a={"href": "http://a.example/%d" % some.randint(1, 10**6), "rel": "alternate", "type": "text/html"}),
    ]
    entry = element("entry", kids, ns="http://www.w3.org/2005/Atom")
    while len(json.dumps(entry, ensure_ascii=False, separators=(",", ":")).encode()) < size:
        kids.append(element(some.choice(["summary", "content", "category"]), [words(some.randint(20, 200))]))
    return entry


def publish(k):
    size = some.choice([200, 400, 800, 1600, 3800])
    item = element("item", [payload(size)], a={"id": "item-%d" % k})
    return [element("publish", [item], a={"node": "node-%d" % (k % 50)})]


for k in range(int(sys.argv[1])):
    kids = create(k) if k % 5 == 0 else publish(k)
    head = {"from": "user%d@a.example/phone" % (k % 100), "id": "id-%d" % k, "to": "pubsub.example", "type": "set"}
    line = element("iq", [element("pubsub", kids, ns=P)], a=head)
    sys.stdout.write(json.dumps(line, ensure_ascii=False, separators=(",", ":"), sort_keys=True) + "\n")
